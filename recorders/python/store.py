"""A key-value store behind a network that loses messages, and clients that give up after a time: `right`, or `wrong`, where a
copy that lags behind answers the reads. The second word is the number of rounds."""
import contextlib
import itertools
import queue
import random
import sys
import threading

from lincheck import Recorder

CLIENTS, LOST, PATIENCE = 3, 0.02, 0.02  # of each message the share that is lost; seconds that a client waits


class Store(threading.Thread):
    def __init__(self, asked):
        super().__init__(daemon=True)
        self.asked, self.requests, self.values, self.copy = asked, queue.Queue(maxsize=2), {}, {}

    def run(self):
        for count in itertools.count():
            key, value, reply = self.requests.get()
            if random.random() < LOST:
                continue
            if self.asked == "right" or count % 4 == 0:
                self.copy = dict(self.values)
            if value is None:
                answer = self.copy.get(key)
            else:
                answer = self.values[key] = value
            if random.random() >= LOST:
                reply.put(answer)

    def ask(self, key, value=None):
        """The answer to a request. `queue.Full` says that the store never got it, `queue.Empty` that none came in time."""
        reply = queue.SimpleQueue()
        self.requests.put_nowait((key, value, reply))
        return reply.get(timeout=PATIENCE)

    def put(self, key, value):
        self.ask(key, value)


def main():
    store = Store(sys.argv[1])
    rounds = int(sys.argv[2]) if len(sys.argv) > 2 else 30
    recorder = Recorder()
    recorder.object("m", "map")

    def work(client):
        me = recorder.process()
        for number in range(rounds):
            key, value = random.choice(["apple", "pear"]), f"{client}-{number}"
            with contextlib.suppress(queue.Full, queue.Empty):
                me.record("m", "put", [key, value], lambda: store.put(key, value), fails=queue.Full)
                me.record("m", "get", [key], lambda: store.ask(key), fails=queue.Full)

    store.start()
    clients = [threading.Thread(target=work, args=(it,)) for it in range(CLIENTS)]
    for client in clients:
        client.start()
    for client in clients:
        client.join()
    recorder.write(sys.stdout)


main()
