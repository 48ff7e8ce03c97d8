/* Clients of a server of HTTP in Java: `Web serve`, and `Web`. They ask for clocks, draws, threads, hashes and the order of maps. */
import com.sun.net.httpserver.HttpExchange;
import com.sun.net.httpserver.HttpServer;
import java.io.IOException;
import java.net.InetSocketAddress;
import java.net.URI;
import java.net.http.HttpClient;
import java.net.http.HttpRequest;
import java.net.http.HttpResponse.BodyHandlers;
import java.util.ArrayList;
import java.util.List;
import java.util.Map;
import java.util.UUID;
import java.util.concurrent.CompletableFuture;
import java.util.concurrent.Executors;

public class Web {
    static void answer(HttpExchange exchange) throws IOException {
        String told = System.nanoTime() + " " + Math.random() + " " + new Object().hashCode() + " " + UUID.randomUUID();
        exchange.sendResponseHeaders(200, told.length());
        exchange.getResponseBody().write(told.getBytes());
        exchange.close();
    }

    static void serve() throws IOException {
        HttpServer server = HttpServer.create(new InetSocketAddress(8080), 0);
        server.setExecutor(Executors.newFixedThreadPool(4));
        server.createContext("/", Web::answer);
        server.start();
    }

    static CompletableFuture<Void> ask(HttpClient client, int number) {
        HttpRequest request = HttpRequest.newBuilder(URI.create("http://server:8080/" + number)).build();
        return client.sendAsync(request, BodyHandlers.ofString())
            .thenAccept(reply -> System.out.println(number + " " + System.nanoTime() + " " + reply.body()));
    }

    public static void main(String[] words) throws IOException {
        if (words.length > 0) {
            serve();
            return;
        }
        HttpClient client = HttpClient.newHttpClient();
        List<CompletableFuture<Void>> asked = new ArrayList<>();
        for (int number = 0; number < 20; number++) asked.add(ask(client, number));
        asked.forEach(CompletableFuture::join);
        System.out.println(Map.of(1, 2, 3, 4, 5, 6) + " " + Thread.activeCount());
        System.exit(0);
    }
}
