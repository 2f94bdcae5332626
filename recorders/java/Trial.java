import java.io.IOException;
import java.nio.file.Path;
import java.util.List;
import java.util.Map;
import java.util.concurrent.atomic.AtomicInteger;
import java.util.concurrent.locks.LockSupport;

/**
 * What bin/check-recorders asks of the recorder itself: `all` records each kind of event, `refused` prints what is said of each
 * mistake, `running` writes while threads run, `cost` prints the nanoseconds that a recorded call takes, and `stuck FILE` hangs in a
 * call.
 */
public final class Trial {
    private static final class Refused extends Exception {
        private static final long serialVersionUID = 1;
    }

    private interface Step {
        void run() throws Exception;
    }

    private static void thrown(Step operation) {
        try {
            operation.run();
            throw new IllegalStateException("nothing was thrown");
        } catch (Exception expected) {
            return;
        }
    }

    private static void all() throws IOException {
        Recorder recorder = new Recorder();
        recorder.object("q", "queue");
        recorder.object("x", "register", 7);
        recorder.object("m", "map");
        recorder.object("s", "set");
        String red = "r\"e\\d\u0001\u00e9";
        Recorder.Process me = recorder.process(5);
        Recorder.Process other = recorder.process();
        me.record("q", "enq", List.of(1), () -> {});
        me.record("q", "deq", List.of(), () -> 1);
        me.record("q", "deq", List.of(), () -> null);
        other.record("x", "cas", List.of(7, 8), () -> true);
        other.call("x", "write", List.of(9));
        other.fail();
        me.record("m", "put", List.of("apple", red), () -> {});
        other.record("m", "get", List.of("apple"), () -> red);
        thrown(() -> me.record("x", "write", List.of(3), () -> { throw new IOException(); }, Refused.class));
        thrown(() -> me.record("m", "put", List.of("pear", 4), () -> { throw new Refused(); }, Refused.class));
        me.call("s", "add", List.of(1));
        me.ret(true);
        other.call("x", "read", List.of());
        other.ret(8);
        other.call("q", "enq", List.of(2));
        other.info();
        me.call("s", "contains", List.of(2));
        recorder.write(System.out);
    }

    private static void tell(Step mistake) {
        try {
            mistake.run();
            System.out.println("taken");
        } catch (Exception fault) {
            System.out.println(fault.getMessage());
        }
    }

    private static void refused() {
        Recorder recorder = new Recorder();
        recorder.object("q", "queue");
        tell(() -> recorder.object("a b", "queue"));
        tell(() -> recorder.object("r", "deque"));
        tell(() -> recorder.object("r", "queue", 1));
        tell(() -> recorder.object("q", "stack"));
        Recorder.Process me = recorder.process(5);
        tell(() -> recorder.process(5));
        tell(() -> recorder.object("r", "queue"));
        tell(() -> me.call("y", "enq", List.of(1)));
        tell(() -> me.call("q", "push", List.of(1)));
        tell(() -> me.call("q", "enq", List.of(1, 2)));
        tell(() -> me.ret(Recorder.OK));
        me.call("q", "enq", List.of(1));
        tell(() -> me.call("q", "deq", List.of()));
        tell(() -> me.ret(1));
        me.ret(Recorder.OK);
        me.call("q", "deq", List.of());
        tell(() -> me.ret(Recorder.OK));
    }

    private static void values() {
        Recorder recorder = new Recorder();
        recorder.object("q", "queue");
        Recorder.Process me = recorder.process();
        tell(() -> me.call("q", "enq", List.of(List.of(7))));
        tell(() -> me.record("q", "enq", List.of(Map.of(7, 8)), () -> {}));
        me.call("q", "deq", List.of());
        tell(() -> me.ret(List.of(7)));
        tell(() -> me.ret(new int[] {7}));
    }

    private static void running() throws IOException {
        Recorder recorder = new Recorder();
        recorder.object("n", "counter");
        AtomicInteger count = new AtomicInteger();
        for (int thread = 0; thread < 3; thread++) {
            new Thread(() -> {
                Recorder.Process me = recorder.process();
                for (int round = 0; round < 1000; round++) {
                    me.record("n", "add", List.of(1), () -> { count.incrementAndGet(); });
                    me.record("n", "get", List.of(), () -> count.get());
                }
            }).start();
        }
        while (count.get() < 300) {
            Thread.yield();
        }
        recorder.write(System.out);
    }

    private static void cost() {
        int calls = 10000;
        long least = Long.MAX_VALUE;
        Recorder recorder = new Recorder();
        recorder.object("q", "queue");
        Recorder.Process me = recorder.process();
        for (int batch = 0; batch < 50; batch++) {
            long start = System.nanoTime();
            for (int i = 0; i < calls; i++) {
                me.record("q", "enq", List.of(i), () -> {});
            }
            least = Math.min(least, System.nanoTime() - start);
        }
        System.out.println(least / calls);
    }

    private static void stuck(String file) throws IOException, InterruptedException {
        Recorder recorder = new Recorder();
        recorder.object("q", "queue");
        recorder.writeAtEnd(Path.of(file));
        Thread thread = new Thread(() -> recorder.process().record("q", "enq", List.of(1), () -> {
            System.out.println("ready");
            while (true) {
                LockSupport.park();
            }
        }));
        thread.start();
        thread.join();
    }

    public static void main(String[] words) throws Exception {
        switch (words[0]) {
            case "all" -> all();
            case "refused" -> refused();
            case "values" -> values();
            case "running" -> running();
            case "cost" -> cost();
            case "stuck" -> stuck(words[1]);
            default -> throw new IllegalArgumentException(words[0]);
        }
    }
}
