// What bin/check-recorders asks of the recorder itself: `all` records each kind of event, `refused` prints what is said of each
// mistake, `running` writes while threads run, `cost` prints the nanoseconds that a recorded call takes, and `stuck FILE` hangs in a
// call.
#include "lincheck.hpp"
#include <chrono>
#include <iostream>
#include <thread>

namespace {

struct Refused {};
struct Unknown {};

template <class Error> void thrown(const std::function<void()> &operation) {
    try {
        operation();
    } catch (const Error &) {
    }
}

void all() {
    lincheck::Recorder recorder;
    recorder.object("q", "queue");
    recorder.object("x", "register", 7);
    recorder.object("m", "map");
    recorder.object("s", "set");
    const std::int64_t apple = recorder.value("apple"), red = recorder.value("r\"e\\d\x01\u00e9"), pear = recorder.value("pear");
    lincheck::Process &me = recorder.process(5), &other = recorder.process();
    me.record("q", "enq", {1}, [] {});
    me.record("q", "deq", {}, [] { return 1; });
    me.record("q", "deq", {}, [] { return std::optional<int>(); });
    other.record("x", "cas", {7, 8}, [] { return true; });
    other.call("x", "write", {9});
    other.fail();
    me.record("m", "put", {apple, red}, [] {});
    other.record("m", "get", {apple}, [] { return std::string("r\"e\\d\x01\u00e9"); });
    thrown<Unknown>([&] { me.record("x", "write", {3}, [] { throw Unknown(); }); });
    thrown<Refused>([&] { me.record("m", "put", {pear, 4}, [] { throw Refused(); }, lincheck::fails<Refused>); });
    me.call("s", "add", {1});
    me.ret(true);
    other.call("x", "read");
    other.ret(8);
    other.call("q", "enq", {2});
    other.info();
    me.call("s", "contains", {2});
    recorder.write(std::cout);
}

void tell(const std::function<void()> &mistake) {
    try {
        mistake();
        std::cout << "taken\n";
    } catch (const std::logic_error &fault) {
        std::cout << fault.what() << '\n';
    }
}

void refused() {
    lincheck::Recorder recorder;
    recorder.object("q", "queue");
    tell([&] { recorder.object("a b", "queue"); });
    tell([&] { recorder.object("r", "deque"); });
    tell([&] { recorder.object("r", "queue", 1); });
    tell([&] { recorder.object("q", "stack"); });
    lincheck::Process &me = recorder.process(5);
    tell([&] { recorder.process(5); });
    tell([&] { recorder.object("r", "queue"); });
    tell([&] { me.call("y", "enq", {1}); });
    tell([&] { me.call("q", "push", {1}); });
    tell([&] { me.call("q", "enq", {1, 2}); });
    tell([&] { me.ret(); });
    me.call("q", "enq", {1});
    tell([&] { me.call("q", "deq"); });
    tell([&] { me.ret(1); });
    me.ret();
    me.call("q", "deq");
    tell([&] { me.ret(); });
}

void running() {
    lincheck::Recorder recorder;
    recorder.object("n", "counter");
    std::atomic<int> count{0};
    std::vector<std::thread> threads;
    for (int thread = 0; thread < 3; thread++) {
        threads.emplace_back([&] {
            lincheck::Process &me = recorder.process();
            for (int round = 0; round < 1000; round++) {
                me.record("n", "add", {1}, [&] { count++; });
                me.record("n", "get", {}, [&] { return count.load(); });
            }
        });
    }
    while (count < 300) std::this_thread::yield();
    recorder.write(std::cout);
    for (std::thread &thread : threads) thread.join();
}

void cost() {
    using Clock = std::chrono::steady_clock;
    constexpr int calls = 10000;
    lincheck::Recorder recorder;
    recorder.object("q", "queue");
    lincheck::Process &me = recorder.process();
    auto least = std::chrono::nanoseconds::max();
    for (int batch = 0; batch < 20; batch++) {
        const auto start = Clock::now();
        for (int i = 0; i < calls; i++) me.record("q", "enq", {i}, [] {});
        least = std::min<std::chrono::nanoseconds>(least, Clock::now() - start);
    }
    std::cout << least.count() / calls << '\n';
}

void stuck(const char *file) {
    lincheck::Recorder recorder;
    recorder.object("q", "queue");
    recorder.write_at_end(file);
    std::thread([&] {
        recorder.process().record("q", "enq", {1}, [] {
            std::cout << "ready" << std::endl;
            for (;;) std::this_thread::sleep_for(std::chrono::hours(1));
        });
    }).join();
}

} // namespace

int main(int count, char **words) {
    const std::string_view asked = count > 1 ? words[1] : "";
    if (asked == "all") all();
    if (asked == "refused") refused();
    if (asked == "running") running();
    if (asked == "cost") cost();
    if (asked == "stuck" && count > 2) stuck(words[2]);
}
