"""What bin/check-recorders asks of the recorder itself: `all` records each kind of event, `refused` prints what is said of each
mistake, `running` writes while threads run, `cost` prints the nanoseconds that a recorded call takes, and `stuck FILE` hangs in a
call."""
import contextlib
import sys
import threading
import time

from lincheck import OK, Recorder


class Refused(Exception):
    pass


def throw(fault):
    raise fault


def all_events():
    recorder = Recorder()
    recorder.object("q", "queue")
    recorder.object("x", "register", 7)
    recorder.object("m", "map")
    recorder.object("s", "set")
    red = 'r"e\\d\x01\u00e9'
    me, other = recorder.process(5), recorder.process()
    me.record("q", "enq", [1], lambda: None)
    me.record("q", "deq", [], lambda: 1)
    me.record("q", "deq", [], lambda: None)
    other.record("x", "cas", [7, 8], lambda: True)
    other.call("x", "write", [9])
    other.fail()
    me.record("m", "put", ["apple", red], lambda: OK)
    other.record("m", "get", ["apple"], lambda: red)
    with contextlib.suppress(OSError):
        me.record("x", "write", [3], lambda: throw(OSError()), fails=Refused)
    with contextlib.suppress(Refused):
        me.record("m", "put", ["pear", 4], lambda: throw(Refused()), fails=Refused)
    me.call("s", "add", [1])
    me.ret(True)
    other.call("x", "read")
    other.ret(8)
    other.call("q", "enq", [2])
    other.info()
    me.call("s", "contains", [2])
    recorder.write(sys.stdout)


def tell(mistake):
    try:
        mistake()
        print("taken")
    except (ValueError, RuntimeError) as fault:
        print(fault)


def refused():
    recorder = Recorder()
    recorder.object("q", "queue")
    tell(lambda: recorder.object("a b", "queue"))
    tell(lambda: recorder.object("r", "deque"))
    tell(lambda: recorder.object("r", "queue", 1))
    tell(lambda: recorder.object("q", "stack"))
    me = recorder.process(5)
    tell(lambda: recorder.process(5))
    tell(lambda: recorder.object("r", "queue"))
    tell(lambda: me.call("y", "enq", [1]))
    tell(lambda: me.call("q", "push", [1]))
    tell(lambda: me.call("q", "enq", [1, 2]))
    tell(lambda: me.ret(OK))
    me.call("q", "enq", [1])
    tell(lambda: me.call("q", "deq"))
    tell(lambda: me.ret(1))
    me.ret(OK)
    me.call("q", "deq")
    tell(lambda: me.ret(OK))


def values():
    recorder = Recorder()
    recorder.object("q", "queue")
    me = recorder.process()
    tell(lambda: me.call("q", "enq", [[7]]))
    tell(lambda: me.record("q", "enq", [{7: 8}], lambda: None))
    me.call("q", "deq")
    tell(lambda: me.ret([7]))
    tell(lambda: recorder.process().record("q", "enq", 7, lambda: None))


def running():
    recorder, lock, counts = Recorder(), threading.Lock(), [0]
    recorder.object("n", "counter")

    def add():
        with lock:
            counts[0] += 1

    def work():
        me = recorder.process()
        for _ in range(1000):
            me.record("n", "add", [1], add)
            me.record("n", "get", [], lambda: counts[0])

    threads = [threading.Thread(target=work) for _ in range(3)]
    for thread in threads:
        thread.start()
    while counts[0] < 300:
        time.sleep(0)
    recorder.write(sys.stdout)
    for thread in threads:
        thread.join()


def cost():
    calls, least = 2000, float("inf")
    recorder = Recorder()
    recorder.object("q", "queue")
    me = recorder.process()
    for _ in range(20):
        start = time.perf_counter_ns()
        for i in range(calls):
            me.record("q", "enq", [i], lambda: None)
        least = min(least, time.perf_counter_ns() - start)
    print(least // calls)


def stuck(path):
    recorder = Recorder()
    recorder.object("q", "queue")
    recorder.write_at_end(path)

    def hang():
        print("ready", flush=True)
        threading.Event().wait()

    thread = threading.Thread(target=lambda: recorder.process().record("q", "enq", [1], hang))
    thread.start()
    thread.join()


{"all": all_events, "refused": refused, "values": values, "running": running, "cost": cost, "stuck": stuck}[sys.argv[1]](*sys.argv[2:])
