import java.io.IOException;
import java.io.OutputStream;
import java.io.UncheckedIOException;
import java.lang.invoke.MethodHandles;
import java.lang.invoke.VarHandle;
import java.nio.charset.StandardCharsets;
import java.nio.file.Files;
import java.nio.file.LinkOption;
import java.nio.file.Path;
import java.util.ArrayList;
import java.util.Arrays;
import java.util.Collection;
import java.util.Comparator;
import java.util.HashMap;
import java.util.List;
import java.util.Map;
import java.util.TreeSet;
import java.util.concurrent.ConcurrentHashMap;
import java.util.concurrent.atomic.AtomicLong;

/**
 * Records what threads call on objects, as a history for lincheck. Copy this file; it needs the standard library alone (17).
 *
 * <pre>
 * Recorder recorder = new Recorder();
 * recorder.object("q", "queue");                               // before the first process
 * Recorder.Process me = recorder.process();                    // one for each thread
 * me.record("q", "enq", List.of(7), () -> { items.add(7); });  // one call: its instants and its reply
 * Integer item = me.record("q", "deq", List.of(), () -> items.poll());
 * recorder.write(System.out);                                  // at any time
 * </pre>
 *
 * <p>{@code record} returns what the operation returned. That is its reply: a Boolean, a whole number or any other value; null
 * says that there was none, or of an operation that answers ok that it is done. After an exception nobody knows whether the call
 * was done ({@code info}), unless it is of a class that stands behind the operation, which says that it was not ({@code fail}).
 * The exception goes on. {@code me.call("q", "enq", List.of(7))}, then {@code ret}, {@code fail} or {@code info}, do the same in
 * two lines.
 *
 * <p>After {@code info} the thread goes on as a new process, with a number of its own. A value that is no whole number, as an
 * argument or a reply, is recorded by a whole number that stands for it: equal values, equal numbers ({@code value}). A list, a
 * map or an array is none. What is given wrongly (a name, a kind, an operation, a value, a call while one is pending) throws
 * {@link IllegalArgumentException} or {@link IllegalStateException}.
 *
 * <p>{@code write} may be called while threads run or hang: calls that have not returned are pending. {@code writeAtEnd} writes
 * the history when the program ends: by {@code System.exit}, with its last thread, or by SIGHUP, SIGINT or SIGTERM. Java runs
 * nothing when its own process crashes.
 */
public final class Recorder {
    /** The reply of an operation that answers nothing but that it is done. */
    public static final Object OK = new Object();

    /** What an operation does that answers something. */
    @FunctionalInterface
    public interface Answering<T, E extends Exception> {
        T run() throws E;
    }

    /** What an operation does that answers nothing. */
    @FunctionalInterface
    public interface Doing<E extends Exception> {
        void run() throws E;
    }

    private record Operation(String name, int args, boolean answersOk) {}

    private record Kind(boolean hasStart, Operation... operations) {}

    private record Declared(String name, String kind, long start, Operation[] operations) {}

    /** An event in text, and its place in time. */
    private record Placed(long instant, String line) {}

    private static final Map<String, Kind> KINDS =
            Map.of(
                    "register", new Kind(true, new Operation("write", 1, true), new Operation("read", 0, false), new Operation("cas", 2, false)),
                    "counter", new Kind(true, new Operation("add", 1, true), new Operation("get", 0, false)),
                    "queue", new Kind(false, new Operation("enq", 1, true), new Operation("deq", 0, false)),
                    "stack", new Kind(false, new Operation("push", 1, true), new Operation("pop", 0, false)),
                    "set", new Kind(false, new Operation("add", 1, false), new Operation("remove", 1, false), new Operation("contains", 1, false)),
                    "mutex", new Kind(false, new Operation("lock", 0, true), new Operation("unlock", 0, true), new Operation("try_lock", 0, false)),
                    "map", new Kind(false, new Operation("put", 2, true), new Operation("get", 1, false), new Operation("delete", 1, false)));

    private static final int CALL = 0, DONE = 1, NUMBER = 2, FLAG = 3, EMPTY = 4, FAIL = 5, INFO = 6;

    /** Few tests use numbers as large as those of values. */
    private static final long FIRST_VALUE = 9000000000000000001L;

    private final AtomicLong instants = new AtomicLong(1);
    private final List<Declared> objects = new ArrayList<>();
    private final List<Process> processes = new ArrayList<>();
    private final TreeSet<Long> numbers = new TreeSet<>();
    private final Map<Object, Long> values = new ConcurrentHashMap<>();
    private final AtomicLong nextValue = new AtomicLong(FIRST_VALUE);

    /** Declares an object that starts empty, free or with 0, before the first process. */
    public void object(String name, String kind) {
        object(name, kind, 0);
    }

    /** Declares an object, before the first process. A register and a counter may start with another number than 0. */
    public synchronized void object(String name, String kind, long start) {
        require(name.matches("[A-Za-z0-9_./:-]{1,64}"), "no name of an object: " + name);
        require(KINDS.containsKey(kind), "no kind of an object: " + kind);
        require(start == 0 || KINDS.get(kind).hasStart(), kind + " has no start");
        requireState(processes.isEmpty(), "objects are declared before the first process");
        requireState(find(name) < 0, "object is declared already: " + name);
        requireState(objects.size() < 1024, "more than 1024 objects");
        objects.add(new Declared(name, kind, start, KINDS.get(kind).operations()));
    }

    /** A process for one thread, whose number is one more than the greatest until now. */
    public synchronized Process process() {
        return addProcess(nextNumber());
    }

    /** The same with this number, from 0 to 4294967295, which no process has or had. */
    public synchronized Process process(long number) {
        require(number >= 0 && number <= 4294967295L, "no number of a process: " + number);
        require(numbers.add(number), "process " + number + " is there already");
        return addProcess(number);
    }

    /** The whole number that stands for a value: a whole number itself, and equal numbers for equal values. */
    public long value(Object value) {
        if (value instanceof Long || value instanceof Integer || value instanceof Short || value instanceof Byte) {
            return ((Number) value).longValue();
        }
        require(!(value instanceof List), "no value: a list");
        require(!(value instanceof Map), "no value: a map");
        require(!(value instanceof Collection), "no value: a collection");
        require(!value.getClass().isArray(), "no value: an array");
        Long known = values.get(value);
        return known != null ? known : values.computeIfAbsent(value, it -> nextValue.getAndIncrement());
    }

    /** Writes what has been recorded. Calls that have not returned are pending. */
    public void write(OutputStream to) throws IOException {
        StringBuilder text = new StringBuilder("{\"format\":2}\n");
        for (Declared it : objects) {
            text.append("{\"event\":\"object\",\"object\":\"" + it.name() + "\",\"kind\":\"" + it.kind() + "\"");
            text.append(it.start() == 0 ? "}\n" : ",\"start\":" + it.start() + "}\n");
        }
        for (Placed it : events()) {
            text.append(it.line()).append('\n');
        }
        to.write(text.toString().getBytes(StandardCharsets.UTF_8));
        to.flush();
    }

    /** Writes the history to this file when the program ends. A file is removed until then; a device, a pipe or a link is not. */
    public void writeAtEnd(Path path) throws IOException {
        if (Files.isRegularFile(path, LinkOption.NOFOLLOW_LINKS)) {
            Files.delete(path);
        }
        Runtime.getRuntime().addShutdownHook(new Thread(() -> {
            try (OutputStream to = Files.newOutputStream(path)) {
                write(to);
            } catch (IOException fault) {
                System.err.println("lincheck: the history was not written: " + fault);
            }
        }));
    }

    /** All events before an instant. The calls that have begun by then are seen, since a call is shown before it takes its instant. */
    private List<Placed> events() {
        long cut = instants.get();
        List<Process> all;
        synchronized (this) {
            all = List.copyOf(processes);
        }
        List<Placed> events = new ArrayList<>();
        Map<Long, String> texts = new HashMap<>();
        values.forEach((value, number) -> texts.put(number, quoted(value.toString())));
        all.forEach(process -> process.addEvents(cut, texts, events));
        events.sort(Comparator.comparingLong(Placed::instant));
        return events;
    }

    /** The text as JSON has it, at most 1,000 characters of it, since a line may not be long. */
    private static String quoted(String text) {
        StringBuilder quoted = new StringBuilder("\"");
        text.codePoints().limit(1000).forEach(letter -> {
            boolean isHalf = letter >= Character.MIN_SURROGATE && letter <= Character.MAX_SURROGATE;
            if (letter == '"' || letter == '\\') {
                quoted.append('\\').appendCodePoint(letter);
            } else if (letter < 0x20 || isHalf) {
                quoted.append(String.format("\\u%04x", isHalf ? 0xFFFD : letter));
            } else {
                quoted.appendCodePoint(letter);
            }
        });
        return quoted.append('"').toString();
    }

    private int find(String name) {
        for (int at = 0; at < objects.size(); at++) {
            if (objects.get(at).name().equals(name)) {
                return at;
            }
        }
        return -1;
    }

    private synchronized long nextNumber() {
        long number = numbers.isEmpty() ? 1 : numbers.last() + 1;
        requireState(number <= 4294967295L, "no number is left for a process");
        numbers.add(number);
        return number;
    }

    private Process addProcess(long number) {
        Process made = new Process(number);
        processes.add(made);
        return made;
    }

    private static void require(boolean holds, String otherwise) {
        if (!holds) {
            throw new IllegalArgumentException(otherwise);
        }
    }

    private static void requireState(boolean holds, String otherwise) {
        if (!holds) {
            throw new IllegalStateException(otherwise);
        }
    }

    /** What one thread records. No other thread uses it. */
    public final class Process {
        private static final int EVENTS = 512, WORDS = 4; // of an event: instant, head, and two arguments or the reply
        private static final VarHandle WORD = MethodHandles.arrayElementVarHandle(long[].class);

        private final List<long[]> full = new ArrayList<>(); // chunks of events, under the lock of this list
        private long[] chunk = new long[EVENTS * WORDS];
        private int at; // in the last chunk
        private volatile int length;
        private long number;
        private Operation pending;
        private int object; // of the last call

        private Process(long number) {
            this.number = number;
            full.add(chunk);
        }

        /** A call of this operation begins now, with this list of arguments. */
        public void call(String name, String op, List<?> args) {
            if (pending != null) {
                throw new IllegalStateException("process " + number + " has a pending call");
            }
            if (object >= objects.size() || !objects.get(object).name().equals(name)) {
                int found = find(name);
                require(found >= 0, "unknown object: " + name);
                object = found;
            }
            Operation[] operations = objects.get(object).operations();
            int of = 0;
            while (of < operations.length && !operations[of].name().equals(op)) {
                of++;
            }
            if (of == operations.length) {
                throw new IllegalArgumentException(objects.get(object).kind() + " has no operation " + op);
            }
            if (args.size() != operations[of].args()) {
                throw new IllegalArgumentException("wrong number of arguments: " + op);
            }
            int from = room();
            chunk[from + 1] = head(CALL, of);
            for (int i = 0; i < args.size(); i++) {
                chunk[from + 2 + i] = value(args.get(i));
            }
            pending = operations[of];
            length++; // shows the call to a writer
            WORD.setOpaque(chunk, from, instants.getAndIncrement());
        }

        /** The pending call has answered: OK, a Boolean, null, a whole number or another value. */
        public void ret(Object reply) {
            long instant = instants.getAndIncrement();
            Object told = reply == null && pending != null && pending.answersOk() ? OK : reply;
            if (pending != null && pending.answersOk() != (told == OK)) {
                throw new IllegalArgumentException(pending.name() + (pending.answersOk() ? " answers ok alone" : " does not answer ok"));
            }
            if (told == OK) {
                end(instant, DONE, 0);
            } else if (told == null) {
                end(instant, EMPTY, 0);
            } else if (told instanceof Boolean flag) {
                end(instant, FLAG, flag ? 1 : 0);
            } else {
                end(instant, NUMBER, value(told));
            }
        }

        /** The pending call was not done and never will be. */
        public void fail() {
            end(instants.getAndIncrement(), FAIL, 0);
        }

        /** Nobody knows whether the pending call was done. The thread goes on as a new process. */
        public void info() {
            end(instants.getAndIncrement(), INFO, 0);
            number = nextNumber();
        }

        /** Records the call that the operation makes, and returns what it returns. */
        @SafeVarargs
        public final <T, E extends Exception> T record(
                String object, String op, List<?> args, Answering<T, E> operation, Class<? extends Exception>... fails) throws E {
            call(object, op, args);
            try {
                T answer = operation.run();
                ret(answer);
                return answer;
            } catch (Throwable thrown) {
                for (Class<? extends Exception> it : fails) {
                    if (it.isInstance(thrown)) {
                        fail();
                        throw thrown;
                    }
                }
                info();
                throw thrown;
            }
        }

        /** The same of an operation that returns nothing. */
        @SafeVarargs
        public final <E extends Exception> void record(
                String object, String op, List<?> args, Doing<E> operation, Class<? extends Exception>... fails) throws E {
            Answering<Object, E> answering = () -> {
                operation.run();
                return OK;
            };
            record(object, op, args, answering, fails);
        }

        private long head(int what, int operation) {
            return number << 32 | (long) object << 16 | (long) operation << 8 | what;
        }

        /** The place of the next event in the chunk. */
        private int room() {
            if (at == EVENTS * WORDS) {
                chunk = new long[EVENTS * WORDS];
                synchronized (full) {
                    full.add(chunk);
                }
                at = 0;
            }
            at += WORDS;
            return at - WORDS;
        }

        private void end(long instant, int what, long value) {
            if (pending == null) {
                throw new IllegalStateException("process " + number + " has no pending call");
            }
            int from = room();
            chunk[from] = instant;
            chunk[from + 1] = head(what, 0);
            chunk[from + 2] = value;
            pending = null;
            length++;
        }

        /** Adds the events before an instant. A call without an instant yet is right behind the event before. */
        private void addEvents(long cut, Map<Long, String> texts, List<Placed> events) {
            int count = length;
            List<long[]> chunks;
            synchronized (full) {
                chunks = List.copyOf(full);
            }
            long last = 0;
            for (int event = 0; event < count; event++) {
                long[] words = chunks.get(event / EVENTS);
                int from = event % EVENTS * WORDS;
                long instant = (long) WORD.getOpaque(words, from);
                if (instant >= cut) {
                    return;
                }
                last = Math.max(last, instant);
                events.add(new Placed(last, line(words[from + 1], Arrays.copyOfRange(words, from + 2, from + WORDS), texts)));
            }
        }

        private String line(long head, long[] values, Map<Long, String> texts) {
            Declared of = objects.get((int) (head >> 16 & 0xFFFF));
            int what = (int) (head & 0xFF);
            String event = what == CALL ? "call" : what == FAIL ? "fail" : what == INFO ? "info" : "return";
            String line = "{\"event\":\"" + event + "\",\"process\":" + (head >>> 32) + ",\"object\":\"" + of.name() + "\"";
            return line + switch (what) {
                case CALL -> callOf(of.operations()[(int) (head >> 8 & 0xFF)], values, texts);
                case DONE -> ",\"result\":\"ok\"";
                case NUMBER -> ",\"result\":" + values[0] + (texts.containsKey(values[0]) ? ",\"text\":" + texts.get(values[0]) : "");
                case FLAG -> ",\"result\":" + (values[0] != 0);
                case EMPTY -> ",\"result\":null";
                default -> "";
            } + "}";
        }

        private String callOf(Operation operation, long[] values, Map<Long, String> texts) {
            List<String> args = new ArrayList<>();
            List<String> words = new ArrayList<>();
            boolean hasText = false;
            for (long value : Arrays.copyOf(values, operation.args())) {
                args.add(Long.toString(value));
                words.add(texts.getOrDefault(value, "null"));
                hasText |= texts.containsKey(value);
            }
            String text = hasText ? ",\"text\":[" + String.join(",", words) + "]" : "";
            return ",\"op\":\"" + operation.name() + "\",\"args\":[" + String.join(",", args) + "]" + text;
        }
    }
}
