// agent.js URL LARGE: requests of Node's client by an agent that keeps one connection alive, and how many it made.
const http = require("http");

const [url, large] = process.argv.slice(2);
const agent = new http.Agent({ keepAlive: true, maxSockets: 1 });
const sockets = new Set();

function ask(method, body) {
    return new Promise((answered, failed) => {
        const request = http.request(url, { agent, method }, (answer) => {
            answer.resume();
            answer.on("end", () => answered(answer.statusCode));
            answer.on("error", failed);
        });
        request.on("socket", (socket) => sockets.add(socket));
        request.on("error", failed);
        request.end(body);
    });
}

async function main() {
    const statuses = [];
    try {
        for (const [method, body] of [["GET"], ["GET"], ["POST", "hello"], ["POST", "x".repeat(Number(large))], ["GET"]]) {
            statuses.push(await ask(method, body));
        }
    } catch (error) {
        statuses.push("fails " + error.code);
    }
    console.log(statuses.join(" ") + " on " + sockets.size);
    agent.destroy();
}

main();
