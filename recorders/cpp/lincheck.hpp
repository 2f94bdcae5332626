// Records what threads call on objects, as a history for lincheck. Copy this file; it needs the standard library alone (C++17).
//
//     lincheck::Recorder recorder;
//     recorder.object("q", "queue");                              // before the first process
//     lincheck::Process &me = recorder.process();                 // one for each thread
//     me.record("q", "enq", {7}, [&] { items.put(7); });          // one call: its instants and its reply
//     auto item = me.record("q", "deq", {}, [&] { return items.take(); });
//     recorder.write(std::cout);                                  // at any time
//
// `record` returns what the operation returned. That is its reply: nothing (for an operation that answers ok), a bool, a
// whole number, a text, or an optional, whose nullopt says that there was none. After an exception nobody knows whether the
// call was done (`info`); `lincheck::fails<Refused>` as a last argument names the exceptions that say that it was not
// (`fail`). The exception goes on. `call`, then `ret`, `fail` or `info`, do the same in two lines.
//
// After `info` the thread goes on as a new process, with a number of its own. `recorder.value("red")` is the whole number
// that stands for a text. What is given wrongly (a name, a kind, an operation, a call while one is pending) throws
// std::logic_error.
//
// `write` may be called while threads run or hang: calls that have not returned are pending. `write_at_end` writes the
// history when the program ends, by exit or by a signal that can be caught, so also after std::terminate (on POSIX alone).
#pragma once
#include <algorithm>
#include <atomic>
#include <charconv>
#include <csignal>
#include <cstdint>
#include <cstdio>
#include <cstdlib>
#include <functional>
#include <initializer_list>
#include <limits>
#include <mutex>
#include <optional>
#include <ostream>
#include <set>
#include <stdexcept>
#include <string>
#include <string_view>
#include <type_traits>
#include <utility>
#include <vector>
#if defined(__unix__) || defined(__APPLE__)
#include <fcntl.h>
#include <sys/stat.h>
#include <unistd.h>
#define LINCHECK_AT_END 1
#endif

namespace lincheck {

struct Ok {};
inline constexpr Ok ok{};

// The exceptions that say that a call was not done.
template <class... Errors> struct Fails {};
template <class... Errors> inline constexpr Fails<Errors...> fails{};

class Recorder;

namespace detail {

struct Operation {
    std::string_view name;
    std::size_t args;
    bool answers_ok;
};

struct Kind {
    std::string_view name;
    bool has_start;
    Operation operations[3];
};

inline constexpr Kind kinds[] = {
    {"register", true, {{"write", 1, true}, {"read", 0, false}, {"cas", 2, false}}},
    {"counter", true, {{"add", 1, true}, {"get", 0, false}, {}}},
    {"queue", false, {{"enq", 1, true}, {"deq", 0, false}, {}}},
    {"stack", false, {{"push", 1, true}, {"pop", 0, false}, {}}},
    {"set", false, {{"add", 1, false}, {"remove", 1, false}, {"contains", 1, false}}},
    {"mutex", false, {{"lock", 0, true}, {"unlock", 0, true}, {"try_lock", 0, false}}},
    {"map", false, {{"put", 2, true}, {"get", 1, false}, {"delete", 1, false}}},
};

enum class What : std::uint8_t { call, ok, number, flag, empty, fail, info };

// A call or its end, in plain numbers. The instant of a call that is about to begin is 0.
struct Event {
    std::atomic<std::uint64_t> instant{0};
    std::uint32_t process = 0;
    std::uint16_t object = 0;
    std::uint8_t operation = 0;
    What what = What::call;
    std::int64_t values[2] = {}; // the arguments, or the reply
};

struct Chunk {
    static constexpr std::size_t room = 512;
    Event events[room];
    std::atomic<Chunk *> next{nullptr};
};

// Where a writer is in the events of a process.
struct Cursor {
    const Chunk *chunk = nullptr;
    std::size_t at = 0, left = 0;

    const Event &event() const { return chunk->events[at]; }

    void step() {
        left--;
        if (++at == Chunk::room) {
            chunk = chunk->next.load(std::memory_order_acquire);
            at = 0;
        }
    }
};

// The number of bytes of the character that a text begins with, or 0 where it is no UTF-8.
inline std::size_t character(std::string_view text) {
    const auto byte = [&](std::size_t i) { return i < text.size() ? static_cast<unsigned char>(text[i]) : 0u; };
    const unsigned first = byte(0), second = byte(1);
    const std::size_t size = first < 0x80 ? 1 : first < 0xC2 ? 0 : first < 0xE0 ? 2 : first < 0xF0 ? 3 : first < 0xF5 ? 4 : 0;
    for (std::size_t i = 1; i < size; i++)
        if ((byte(i) & 0xC0) != 0x80) return 0;
    const bool is_odd = (first == 0xE0 && second < 0xA0) || (first == 0xED && second > 0x9F) || (first == 0xF0 && second < 0x90) ||
                        (first == 0xF4 && second > 0x8F);
    return is_odd ? 0 : size;
}

// Text on its way out. It takes no memory and no lock, since a handler of a signal writes too.
class Out {
  public:
    using Sink = bool (*)(void *to, const char *bytes, std::size_t count);

    Out(Sink sink, void *to) : sink_(sink), to_(to) {}

    void flush() {
        is_whole_ = is_whole_ && sink_(to_, bytes_, count_);
        count_ = 0;
    }

    // Whether all went out.
    bool is_whole() const { return is_whole_; }

    Out &operator<<(std::string_view text) {
        for (const char byte : text) {
            if (count_ == sizeof bytes_) flush();
            bytes_[count_++] = byte;
        }
        return *this;
    }

    template <class T, std::enable_if_t<std::is_integral_v<T>, int> = 0> Out &operator<<(T number) {
        char digits[24];
        return *this << std::string_view(digits, static_cast<std::size_t>(std::to_chars(digits, digits + sizeof digits, number).ptr - digits));
    }

    // The text as JSON has it, at most 1,000 bytes of it, since a line may not be long.
    void quote(std::string_view text) {
        *this << "\"";
        for (std::size_t at = 0; at < text.size() && at < 1000;) {
            const std::size_t size = character(text.substr(at));
            const char byte = text[at];
            if (size == 0) *this << "\\ufffd";
            else if (byte == '"' || byte == '\\') *this << "\\" << text.substr(at, 1);
            else if (static_cast<unsigned char>(byte) < 0x20) *this << (byte < 0x10 ? "\\u000" : "\\u001") << std::string_view(&"0123456789abcdef"[byte % 16], 1);
            else *this << text.substr(at, size);
            at += size ? size : 1;
        }
        *this << "\"";
    }

  private:
    Sink sink_;
    void *to_;
    std::size_t count_ = 0;
    bool is_whole_ = true;
    char bytes_[4096];
};

} // namespace detail

// What a call answered.
class Reply {
  public:
    Reply(Ok) : what_(detail::What::ok) {}
    Reply(std::nullopt_t) : what_(detail::What::empty) {}

    template <class T, std::enable_if_t<std::is_integral_v<T>, int> = 0>
    Reply(T number) : what_(std::is_same_v<T, bool> ? detail::What::flag : detail::What::number), number_(static_cast<std::int64_t>(number)) {}

    template <class T, std::enable_if_t<std::is_convertible_v<const T &, std::string_view>, int> = 0>
    Reply(const T &text) : what_(detail::What::number), is_text_(true), text_(text) {}

    template <class T> Reply(const std::optional<T> &reply) : Reply(reply ? Reply(*reply) : Reply(std::nullopt)) {}

  private:
    friend class Process;
    detail::What what_;
    bool is_text_ = false;
    std::int64_t number_ = 0;
    std::string_view text_;
};

// What one thread records. No other thread uses it.
class Process {
  public:
    // A call of this operation begins now.
    void call(std::string_view object, std::string_view op, std::initializer_list<std::int64_t> args = {});

    // The pending call has answered.
    void ret(Reply reply = ok);

    // The pending call was not done and never will be.
    void fail() { end(now(), detail::What::fail); }

    // Nobody knows whether the pending call was done. The thread goes on as a new process.
    void info();

    // Records the call that the operation makes, and returns what it returns.
    template <class F, class... Errors>
    std::invoke_result_t<F> record(std::string_view object, std::string_view op, std::initializer_list<std::int64_t> args, F &&operation,
                                   Fails<Errors...> = {}) {
        call(object, op, args);
        try {
            if constexpr (std::is_void_v<std::invoke_result_t<F>>) {
                std::invoke(std::forward<F>(operation));
                ret();
            } else {
                std::invoke_result_t<F> answer = std::invoke(std::forward<F>(operation));
                ret(answer);
                return answer;
            }
        } catch (...) {
            if ((is_thrown<Errors>() || ...)) fail();
            else info();
            throw;
        }
    }

    Process(const Process &) = delete;
    Process &operator=(const Process &) = delete;

  private:
    friend class Recorder;

    Process(Recorder &recorder, std::uint32_t number) : recorder_(recorder), number_(number) {}

    ~Process() {
        for (const detail::Chunk *chunk = first_; chunk;) delete std::exchange(chunk, chunk->next.load());
    }

    template <class Error> static bool is_thrown() {
        try {
            throw;
        } catch (const Error &) {
            return true;
        } catch (...) {
            return false;
        }
    }

    std::uint64_t now();
    detail::Event &room();
    void end(std::uint64_t instant, detail::What what, std::int64_t value = 0);

    // Shows the event that was filled to a writer.
    void show() {
        at_++;
        length_.store(length_.load(std::memory_order_relaxed) + 1, std::memory_order_release);
    }

    std::string name() const { return "process " + std::to_string(number_); }

    Recorder &recorder_;
    std::uint32_t number_;
    const detail::Operation *pending_ = nullptr; // the operation of the pending call
    std::size_t object_ = 0;                     // the object of the last call
    detail::Chunk *const first_ = new detail::Chunk, *last_ = first_;
    std::size_t at_ = 0; // in the last chunk
    std::atomic<std::size_t> length_{0};
    detail::Cursor cursors_[2]; // of `write`, and of the writer at the end
    Process *next_ = nullptr;
};

// A history that is being recorded.
class Recorder {
  public:
    Recorder() = default;
    Recorder(const Recorder &) = delete;
    Recorder &operator=(const Recorder &) = delete;

    ~Recorder() {
#ifdef LINCHECK_AT_END
        if (!path_.empty()) write_at_exit();
#endif
        for (const Process *process = processes_.load(); process;) delete std::exchange(process, process->next_);
        for (const auto &bucket : by_number_)
            for (const Text *text = bucket.load(); text;) delete std::exchange(text, text->next_by_number);
    }

    // Declares an object, before the first process. A register and a counter may start with another number than 0.
    void object(std::string_view name, std::string_view kind, std::int64_t start = 0) {
        const auto *of = std::find_if(std::begin(detail::kinds), std::end(detail::kinds), [&](auto &it) { return it.name == kind; });
        const std::string told(name);
        if (!is_name(name)) throw std::invalid_argument("no name of an object: " + told);
        if (of == std::end(detail::kinds)) throw std::invalid_argument("no kind of an object: " + std::string(kind));
        if (start != 0 && !of->has_start) throw std::invalid_argument(std::string(kind) + " has no start");
        if (processes_.load()) throw std::logic_error("objects are declared before the first process");
        if (find(name) != objects_.size()) throw std::logic_error("object is declared already: " + told);
        if (objects_.size() == 1024) throw std::logic_error("more than 1024 objects");
        objects_.push_back({told, of, start});
    }

    // A process for one thread, whose number is one more than the greatest until now.
    Process &process() {
        const std::lock_guard<std::mutex> guard(lock_);
        return add_process(next_number());
    }

    // The same with this number, which no process has or had.
    Process &process(std::uint32_t number) {
        const std::lock_guard<std::mutex> guard(lock_);
        if (!numbers_.insert(number).second) throw std::invalid_argument("process " + std::to_string(number) + " is there already");
        return add_process(number);
    }

    // The whole number that stands for a text: equal texts, equal numbers.
    std::int64_t value(std::string_view text) {
        std::atomic<Text *> &bucket = by_text_[std::hash<std::string_view>{}(text) % buckets];
        const auto known = [&] {
            const Text *it = bucket.load(std::memory_order_acquire);
            while (it && it->text != text) it = it->next_by_text;
            return it;
        };
        if (const Text *it = known()) return it->number;
        const std::lock_guard<std::mutex> guard(lock_);
        if (const Text *it = known()) return it->number;
        const std::int64_t number = first_text + texts_++;
        std::atomic<Text *> &numbered = by_number_[static_cast<std::size_t>(number) % buckets];
        Text *made = new Text{std::string(text), number, bucket.load(), numbered.load()};
        numbered.store(made, std::memory_order_release);
        bucket.store(made, std::memory_order_release);
        return number;
    }

    // Writes what has been recorded. Calls that have not returned are pending.
    void write(std::ostream &to) {
        const std::lock_guard<std::mutex> guard(writing_);
        detail::Out out([](void *stream, const char *bytes, std::size_t count) {
            return static_cast<std::ostream *>(stream)->write(bytes, static_cast<std::streamsize>(count)).good();
        }, &to);
        write_history(out, 0);
        to.flush();
    }

#ifdef LINCHECK_AT_END
    // Writes the history to this file when the recorder is destroyed or the program ends: by exit, or by a signal that would
    // end it and has no handler. A file is removed until then; a device, a pipe or a link is not. One recorder at a time.
    void write_at_end(const std::string &path) {
        if (ending_.load()) throw std::logic_error("a recorder writes at the end already");
        path_ = path;
        struct stat found;
        if (::lstat(path_.c_str(), &found) == 0 && S_ISREG(found.st_mode)) std::remove(path_.c_str());
        ending_.store(this);
        static const bool is_set = set_handlers();
        static_cast<void>(is_set);
    }
#endif

  private:
    friend class Process;

    struct Object {
        std::string name;
        const detail::Kind *kind;
        std::int64_t start;
    };

    struct Text {
        std::string text;
        std::int64_t number;
        const Text *next_by_text, *next_by_number;
    };

    static constexpr std::int64_t first_text = 9000000000000000001; // few tests use numbers as large
    static constexpr std::size_t buckets = 1024;

    static bool is_name(std::string_view name) {
        constexpr std::string_view letters = "ABCDEFGHIJKLMNOPQRSTUVWXYZabcdefghijklmnopqrstuvwxyz0123456789_./:-";
        return !name.empty() && name.size() <= 64 && name.find_first_not_of(letters) == std::string_view::npos;
    }

    // The place of an object; behind the last one where there is none.
    std::size_t find(std::string_view name) const {
        const auto is_named = [&](const Object &it) { return it.name == name; };
        return static_cast<std::size_t>(std::find_if(objects_.begin(), objects_.end(), is_named) - objects_.begin());
    }

    // Under the lock: a number that no process has or had.
    std::uint32_t next_number() {
        const std::uint64_t number = numbers_.empty() ? 1 : std::uint64_t{*numbers_.rbegin()} + 1;
        if (number > std::numeric_limits<std::uint32_t>::max()) throw std::logic_error("no number is left for a process");
        return *numbers_.insert(static_cast<std::uint32_t>(number)).first;
    }

    Process &add_process(std::uint32_t number) {
        Process *made = new Process(*this, number);
        made->next_ = processes_.load();
        processes_.store(made);
        return *made;
    }

    // Writes all events before an instant. The calls that have begun by then are seen, since a call is shown before it takes
    // its instant; one that shows no instant yet may have begun, and stands right behind what its process did before.
    void write_history(detail::Out &out, int reader) const {
        const std::uint64_t cut = instants_.load();
        Process *const processes = processes_.load();
        out << "{\"format\":2}\n";
        for (const Object &it : objects_) {
            out << "{\"event\":\"object\",\"object\":\"" << it.name << "\",\"kind\":\"" << it.kind->name << "\"";
            if (it.start != 0) out << ",\"start\":" << it.start;
            out << "}\n";
        }
        for (Process *it = processes; it; it = it->next_) it->cursors_[reader] = {it->first_, 0, it->length_.load(std::memory_order_acquire)};
        for (;;) {
            detail::Cursor *first = nullptr;
            std::uint64_t least = cut;
            for (Process *it = processes; it; it = it->next_) {
                detail::Cursor &cursor = it->cursors_[reader];
                const std::uint64_t instant = cursor.left ? cursor.event().instant.load(std::memory_order_relaxed) : cut;
                if (instant < least) {
                    least = instant;
                    first = &cursor;
                }
            }
            if (!first) break;
            write_event(out, first->event());
            first->step();
        }
        out.flush();
    }

    void write_event(detail::Out &out, const detail::Event &event) const {
        static constexpr std::string_view names[] = {"call", "return", "return", "return", "return", "fail", "info"};
        const Object &of = objects_[event.object];
        out << "{\"event\":\"" << names[static_cast<int>(event.what)] << "\",\"process\":" << event.process << ",\"object\":\"" << of.name << "\"";
        switch (event.what) {
        case detail::What::call: write_call(out, of.kind->operations[event.operation], event.values); break;
        case detail::What::ok: out << ",\"result\":\"ok\""; break;
        case detail::What::number: write_number(out, event.values[0]); break;
        case detail::What::flag: out << ",\"result\":" << (event.values[0] ? "true" : "false"); break;
        case detail::What::empty: out << ",\"result\":null"; break;
        case detail::What::fail:
        case detail::What::info: break;
        }
        out << "}\n";
    }

    void write_call(detail::Out &out, const detail::Operation &operation, const std::int64_t *args) const {
        bool has_text = false;
        out << ",\"op\":\"" << operation.name << "\",\"args\":[";
        for (std::size_t i = 0; i < operation.args; i++) {
            out << (i ? "," : "") << args[i];
            has_text = has_text || text_of(args[i]);
        }
        out << "]";
        for (std::size_t i = 0; has_text && i < operation.args; i++) {
            out << (i ? "," : ",\"text\":[");
            if (const Text *it = text_of(args[i])) out.quote(it->text);
            else out << "null";
        }
        if (has_text) out << "]";
    }

    void write_number(detail::Out &out, std::int64_t number) const {
        out << ",\"result\":" << number;
        if (const Text *it = text_of(number)) {
            out << ",\"text\":";
            out.quote(it->text);
        }
    }

    // The text that a number stands for, or nothing.
    const Text *text_of(std::int64_t number) const {
        const Text *it = number < first_text ? nullptr : by_number_[static_cast<std::size_t>(number) % buckets].load(std::memory_order_acquire);
        while (it && it->number != number) it = it->next_by_number;
        return it;
    }

#ifdef LINCHECK_AT_END
    static bool set_handlers() {
        std::atexit(write_at_exit);
        for (const int number : {SIGHUP, SIGINT, SIGQUIT, SIGILL, SIGABRT, SIGBUS, SIGFPE, SIGSEGV, SIGALRM, SIGTERM}) {
            const auto old = std::signal(number, on_signal);
            if (old != SIG_DFL) std::signal(number, old);
        }
        return true;
    }

    // Whoever is writing already ends the program after that. Behind SIGABRT the program would end before.
    static void on_signal(int number) {
        if (number == SIGABRT) write_at_exit();
        else if (!write_now()) return;
        std::signal(number, SIG_DFL);
        std::raise(number);
    }

    static void write_at_exit() {
        while (!write_now()) {
        }
    }

    // Writes the history of the recorder that asked for it, once. Answers false where another thread, or the code that this
    // handler of a signal interrupts, is writing it.
    static bool write_now() {
        Recorder *const busy = reinterpret_cast<Recorder *>(&ending_);
        Recorder *it = ending_.load();
        while (it && it != busy && !ending_.compare_exchange_weak(it, busy)) {
        }
        if (!it || it == busy) return !it;
        int file = ::open(it->path_.c_str(), O_WRONLY | O_CREAT | O_TRUNC, 0666);
        detail::Out out([](void *to, const char *bytes, std::size_t count) {
            while (count) {
                const ssize_t done = ::write(*static_cast<int *>(to), bytes, count);
                if (done < 0) return false;
                bytes += done;
                count -= static_cast<std::size_t>(done);
            }
            return true;
        }, &file);
        it->write_history(out, 1);
        if (::close(file) != 0 || !out.is_whole()) {
            constexpr std::string_view told = "lincheck: the history was not written\n";
            static_cast<void>(::write(2, told.data(), told.size()) < 0);
        }
        ending_.store(nullptr);
        return true;
    }

    inline static std::atomic<Recorder *> ending_{nullptr}; // the recorder that writes at the end; itself while it writes
    std::string path_;
#endif

    alignas(64) std::atomic<std::uint64_t> instants_{1}; // in a cache line of its own
    alignas(64) std::atomic<Process *> processes_{nullptr};
    std::vector<Object> objects_;
    std::mutex lock_; // of the numbers, and of who adds a process or a text
    std::mutex writing_;
    std::set<std::uint32_t> numbers_;
    std::int64_t texts_ = 0;
    std::atomic<Text *> by_text_[buckets] = {}, by_number_[buckets] = {};
};

inline std::uint64_t Process::now() { return recorder_.instants_.fetch_add(1); }

// The place of the next event.
inline detail::Event &Process::room() {
    if (at_ == detail::Chunk::room) {
        detail::Chunk *made = new detail::Chunk;
        last_->next.store(made, std::memory_order_release);
        last_ = made;
        at_ = 0;
    }
    return last_->events[at_];
}

inline void Process::call(std::string_view object, std::string_view op, std::initializer_list<std::int64_t> args) {
    if (pending_) throw std::logic_error(name() + " has a pending call");
    const auto &objects = recorder_.objects_;
    if (object_ >= objects.size() || objects[object_].name != object) object_ = recorder_.find(object);
    if (object_ == objects.size()) throw std::invalid_argument("unknown object: " + std::string(object));
    const auto &operations = objects[object_].kind->operations;
    const auto *of = std::find_if(std::begin(operations), std::end(operations), [&](auto &it) { return !op.empty() && it.name == op; });
    if (of == std::end(operations)) throw std::invalid_argument(std::string(objects[object_].kind->name) + " has no operation " + std::string(op));
    if (args.size() != of->args) throw std::invalid_argument("wrong number of arguments: " + std::string(op));
    detail::Event &event = room();
    event.process = number_;
    event.object = static_cast<std::uint16_t>(object_);
    event.operation = static_cast<std::uint8_t>(of - std::begin(operations));
    std::copy(args.begin(), args.end(), event.values);
    pending_ = of;
    show();
    event.instant.store(now(), std::memory_order_relaxed);
}

inline void Process::ret(Reply reply) {
    const std::uint64_t instant = now();
    if (pending_ && pending_->answers_ok != (reply.what_ == detail::What::ok))
        throw std::invalid_argument(std::string(pending_->name) + (pending_->answers_ok ? " answers ok alone" : " does not answer ok"));
    end(instant, reply.what_, reply.is_text_ ? recorder_.value(reply.text_) : reply.number_);
}

inline void Process::info() {
    end(now(), detail::What::info);
    const std::lock_guard<std::mutex> guard(recorder_.lock_);
    number_ = recorder_.next_number();
}

inline void Process::end(std::uint64_t instant, detail::What what, std::int64_t value) {
    if (!pending_) throw std::logic_error(name() + " has no pending call");
    detail::Event &event = room();
    event.instant.store(instant, std::memory_order_relaxed);
    event.process = number_;
    event.object = static_cast<std::uint16_t>(object_);
    event.what = what;
    event.values[0] = value;
    pending_ = nullptr;
    show();
}

} // namespace lincheck
