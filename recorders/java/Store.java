import java.io.IOException;
import java.util.ArrayList;
import java.util.HashMap;
import java.util.List;
import java.util.Map;
import java.util.concurrent.ArrayBlockingQueue;
import java.util.concurrent.BlockingQueue;
import java.util.concurrent.CompletableFuture;
import java.util.concurrent.ThreadLocalRandom;
import java.util.concurrent.TimeUnit;
import java.util.concurrent.TimeoutException;

/**
 * A key-value store behind a network that loses messages, and clients that give up after a time: `right`, or `wrong`, where a
 * copy that lags behind answers the reads. The second word is the number of rounds.
 */
public final class Store {
    private static final int CLIENTS = 3;
    private static final double LOST = 0.02; // of each message the share that is lost
    private static final int PATIENCE = 20; // milliseconds

    /** The store never got the request. */
    private static final class BusyException extends Exception {
        private static final long serialVersionUID = 1;
    }

    private record Request(String key, String value, CompletableFuture<String> reply) {}

    private final BlockingQueue<Request> requests = new ArrayBlockingQueue<>(2);

    private void serve(String asked) {
        Map<String, String> values = new HashMap<>();
        Map<String, String> copy = new HashMap<>();
        for (int count = 0; ; count++) {
            Request it;
            try {
                it = requests.take();
            } catch (InterruptedException ended) {
                return;
            }
            if (isLost()) {
                continue;
            }
            if (asked.equals("right") || count % 4 == 0) {
                copy = new HashMap<>(values);
            }
            String answer = copy.get(it.key());
            if (it.value() != null) {
                values.put(it.key(), it.value());
            }
            if (!isLost()) {
                it.reply().complete(answer);
            }
        }
    }

    private static boolean isLost() {
        return ThreadLocalRandom.current().nextDouble() < LOST;
    }

    /** The answer to a request; a TimeoutException says that none came in time. */
    private String ask(String key, String value) throws Exception {
        CompletableFuture<String> reply = new CompletableFuture<>();
        if (!requests.offer(new Request(key, value, reply))) {
            throw new BusyException();
        }
        return reply.get(PATIENCE, TimeUnit.MILLISECONDS);
    }

    private void put(String key, String value) throws Exception {
        ask(key, value);
    }

    private void work(Recorder recorder, int client, int rounds) {
        Recorder.Process me = recorder.process();
        for (int round = 0; round < rounds; round++) {
            String key = ThreadLocalRandom.current().nextBoolean() ? "apple" : "pear";
            String value = client + "-" + round;
            try {
                me.record("m", "put", List.of(key, value), () -> put(key, value), BusyException.class);
                me.record("m", "get", List.of(key), () -> ask(key, null), BusyException.class);
            } catch (BusyException | TimeoutException next) {
                continue;
            } catch (Exception fault) {
                throw new IllegalStateException(fault);
            }
        }
    }

    public static void main(String[] words) throws InterruptedException, IOException {
        int rounds = words.length > 1 ? Integer.parseInt(words[1]) : 30;
        Store store = new Store();
        Thread server = new Thread(() -> store.serve(words[0]));
        server.start();
        Recorder recorder = new Recorder();
        recorder.object("m", "map");
        List<Thread> clients = new ArrayList<>();
        for (int client = 0; client < CLIENTS; client++) {
            int number = client;
            clients.add(new Thread(() -> store.work(recorder, number, rounds)));
        }
        clients.forEach(Thread::start);
        for (Thread client : clients) {
            client.join();
        }
        server.interrupt();
        recorder.write(System.out);
    }
}
