import java.net.URI;
import java.net.http.HttpClient;
import java.net.http.HttpRequest;
import java.net.http.HttpResponse;

/** Posts so many bytes by the JDK's client as it stands: it offers HTTP/2 by `Connection: Upgrade, HTTP2-Settings`. */
public class Post {
    public static void main(String[] words) throws Exception {
        HttpRequest request = HttpRequest.newBuilder(URI.create(words[0]))
            .POST(HttpRequest.BodyPublishers.ofString("x".repeat(Integer.parseInt(words[1]))))
            .build();
        HttpResponse<String> answer = HttpClient.newHttpClient().send(request, HttpResponse.BodyHandlers.ofString());
        System.out.print(answer.statusCode());
        System.exit(0);
    }
}
