"""A queue that four threads put into and take from: `right` under one lock, or `wrong`, where the look at the first item and its
removal are two steps without the lock; `narrow` is as wrong, without a pause between the two. The second word is the number
of rounds."""
import contextlib
import sys
import threading
import time

from lincheck import Recorder

THREADS = 4


class Queue:
    def __init__(self, asked):
        self.asked, self.lock, self.first, self.items = asked, threading.Lock(), 0, []

    def put(self, item):
        with self.lock:
            self.items.append(item)

    def take(self):
        """An item, or None where there is none."""
        with self.lock if self.asked == "right" else contextlib.nullcontext():
            at = self.first
            if at == len(self.items):
                return None
            if self.asked == "wrong":
                time.sleep(0)
            self.first = at + 1
            return self.items[at]


def main():
    sys.setswitchinterval(1e-6)
    items = Queue(sys.argv[1])
    rounds = int(sys.argv[2]) if len(sys.argv) > 2 else 100
    recorder, start = Recorder(), threading.Barrier(THREADS)
    recorder.object("q", "queue")

    def work(first):
        me = recorder.process()
        start.wait()
        for item in range(first, first + rounds):
            me.record("q", "enq", [item], lambda: items.put(item))
            me.record("q", "deq", [], items.take)

    threads = [threading.Thread(target=work, args=(it * rounds,)) for it in range(THREADS)]
    for thread in threads:
        thread.start()
    for thread in threads:
        thread.join()
    recorder.write(sys.stdout)


main()
