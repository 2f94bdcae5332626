// A queue that four threads put into and take from: `right` under one lock, or `wrong`, where the look at the first item and its
// removal are two steps without the lock; `narrow` is as wrong, without a pause between the two. The second word is the number
// of rounds.
#include "lincheck.hpp"
#include <iostream>
#include <thread>

namespace {

class Queue {
  public:
    Queue(std::string_view asked, int room) : asked_(asked), items_(static_cast<std::size_t>(room)) {}

    void put(int item) {
        const std::lock_guard<std::mutex> guard(lock_);
        items_[last_] = item;
        last_++;
    }

    std::optional<int> take() {
        if (asked_ != "right") return take_first();
        const std::lock_guard<std::mutex> guard(lock_);
        return take_first();
    }

  private:
    std::optional<int> take_first() {
        const std::size_t at = first_;
        if (at == last_) return std::nullopt;
        if (asked_ == "wrong") std::this_thread::yield();
        first_ = at + 1;
        return items_[at];
    }

    const std::string_view asked_;
    std::mutex lock_;
    std::atomic<std::size_t> first_{0}, last_{0};
    std::vector<int> items_;
};

} // namespace

int main(int count, char **words) {
    constexpr int threads = 4;
    const int rounds = count > 2 ? std::atoi(words[2]) : 100;
    Queue items(count > 1 ? words[1] : "right", threads * rounds);
    lincheck::Recorder recorder;
    recorder.object("q", "queue");
    std::atomic<int> waiting{threads};
    std::vector<std::thread> all;
    for (int thread = 0; thread < threads; thread++) {
        all.emplace_back([&, thread] {
            lincheck::Process &me = recorder.process();
            for (waiting--; waiting > 0;) std::this_thread::yield();
            for (int item = thread * rounds; item < (thread + 1) * rounds; item++) {
                me.record("q", "enq", {item}, [&] { items.put(item); });
                me.record("q", "deq", {}, [&] { return items.take(); });
            }
        });
    }
    for (std::thread &thread : all) thread.join();
    recorder.write(std::cout);
    return std::cout ? 0 : 70;
}
