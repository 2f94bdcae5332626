import java.io.IOException;
import java.util.ArrayList;
import java.util.List;
import java.util.concurrent.atomic.AtomicInteger;

/**
 * A queue that four threads put into and take from: `right` under one lock, or `wrong`, where the look at the first item and its
 * removal are two steps without the lock; `narrow` is as wrong, without a pause between the two. The second word is the number
 * of rounds.
 */
public final class Example {
    private static final int THREADS = 4;

    private static final class Items {
        private final String asked;
        private final int[] items;
        private volatile int first;
        private volatile int last;

        Items(String asked, int room) {
            this.asked = asked;
            items = new int[room];
        }

        synchronized void put(int item) {
            items[last] = item;
            last++;
        }

        /** An item, or null where there is none. */
        Integer take() {
            if (!asked.equals("right")) {
                return takeFirst();
            }
            synchronized (this) {
                return takeFirst();
            }
        }

        private Integer takeFirst() {
            int at = first;
            if (at == last) {
                return null;
            }
            if (asked.equals("wrong")) {
                Thread.yield();
            }
            first = at + 1;
            return items[at];
        }
    }

    public static void main(String[] words) throws InterruptedException, IOException {
        int rounds = words.length > 1 ? Integer.parseInt(words[1]) : 100;
        Items items = new Items(words[0], THREADS * rounds);
        AtomicInteger waiting = new AtomicInteger(THREADS);
        Recorder recorder = new Recorder();
        recorder.object("q", "queue");
        List<Thread> threads = new ArrayList<>();
        for (int thread = 0; thread < THREADS; thread++) {
            int first = thread * rounds;
            threads.add(new Thread(() -> {
                Recorder.Process me = recorder.process();
                waiting.decrementAndGet();
                while (waiting.get() > 0) {
                    Thread.yield();
                }
                for (int i = 0; i < rounds; i++) {
                    int item = first + i;
                    me.record("q", "enq", List.of(item), () -> items.put(item));
                    me.record("q", "deq", List.of(), () -> items.take());
                }
            }));
        }
        threads.forEach(Thread::start);
        for (Thread thread : threads) {
            thread.join();
        }
        recorder.write(System.out);
    }
}
