import java.net.URI;
import java.net.http.HttpClient;
import java.net.http.HttpRequest;
import java.net.http.HttpResponse;
import java.util.ArrayList;
import java.util.List;
import java.util.concurrent.CompletableFuture;

/** `URL VERSION COUNT`: sends eight requests by the JDK's client of this version, COUNT of them at once. */
public class Several {
    public static void main(String[] words) throws Exception {
        HttpClient client = HttpClient.newBuilder().version(HttpClient.Version.valueOf(words[1])).build();
        int atOnce = Integer.parseInt(words[2]);
        HttpRequest get = HttpRequest.newBuilder(URI.create(words[0])).build();
        HttpRequest post = HttpRequest.newBuilder(URI.create(words[0]))
            .POST(HttpRequest.BodyPublishers.ofString("hello"))
            .build();
        List<String> statuses = new ArrayList<>();
        for (int sent = 0; sent < 8; sent += atOnce) {
            List<CompletableFuture<HttpResponse<String>>> answers = new ArrayList<>();
            for (int number = 0; number < atOnce; number++) {
                HttpRequest request = (sent + number) % 2 == 0 ? get : post;
                answers.add(client.sendAsync(request, HttpResponse.BodyHandlers.ofString()));
            }
            for (CompletableFuture<HttpResponse<String>> answer : answers) {
                statuses.add(String.valueOf(answer.get().statusCode()));
            }
        }
        System.out.print(String.join(" ", statuses));
        System.exit(0);
    }
}
