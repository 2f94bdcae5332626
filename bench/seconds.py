#!/usr/bin/env python3
"""Checks that a check ends when its seconds are over, by the processor's clock.

    bench/seconds.py PROGRAM [--all] [--jobs N] [NAME..]

Makes histories that take long, of each kind: thousands of calls at once, waves of them, calls that never return, and what was ever
found to take long. PROGRAM answers each with --seconds 1 and --workers 1: alone, with --each, with --explain, and with both. It may
take 1.5 seconds of one processor's time, beside what it takes to read the text, which no second is counted for, and has to end with a
status of an answer. Some histories of each kind are tried, in about a minute on two processors; with --all 20 of each. NAME is a word
with which the names of the histories tried begin. Prints what took longer, and the longest; the exit status is 1 where one took
longer, and 70 where nothing can be checked. The seconds are those of a clock: a machine that does other work tells less.
"""
import argparse
import os
import random
import resource
import signal
import subprocess
import sys
import tempfile
from concurrent.futures import ThreadPoolExecutor
from pathlib import Path

sys.path.insert(0, str(Path(__file__).resolve().parent))
from histories import OKAY, RepeatedQueue, call, declared, lines, returned, simulated, with_item_taken_twice, with_swapped_results

SECONDS, MOST = 1, 1.5
# A program that does not end at all is ended after so many seconds of a processor.
ENDED = 6
ANSWERS = {0, 1, 3}
# A text with such a line at its end is read, and nothing is searched.
FAULTY = "[]\n"
WAYS = [[], ["--each"], ["--explain"], ["--each", "--explain"]]
FOR_EACH = 20


# ---- calls at once: each is an operation, its arguments and the reply of an object that does them in some order


def register_calls(chance, count, values):
    value, made = 0, []
    for _ in range(count):
        op = chance.choice(["write", "write", "read", "read", "cas"])
        other = chance.randrange(values)
        if op == "read":
            made.append((op, None, value))
        elif op == "write":
            made.append((op, other, OKAY))
            value = other
        else:
            expected = value if chance.random() < 0.5 else chance.randrange(values)
            made.append((op, (expected, other), "true" if expected == value else "false"))
            value = other if expected == value else value
    return made


def counter_calls(chance, count, values):
    value, made = 0, []
    for _ in range(count):
        if chance.random() < 0.4:
            made.append(("get", None, value))
        else:
            more = chance.randrange(-values, values + 1)
            made.append(("add", more, OKAY))
            value += more
    return made


def buffer_calls(put, take, end):
    def calls(chance, count, values):
        items, made = [], []
        for _ in range(count):
            if chance.random() < 0.5:
                made.append((put, chance.randrange(values), OKAY))
                items.append(made[-1][1])
            else:
                made.append((take, None, items.pop(end) if items else "null"))
        return made

    return calls


def set_calls(chance, count, values):
    items, made = set(), []
    for _ in range(count):
        op, item = chance.choice(["add", "remove", "contains"]), chance.randrange(values)
        was = item in items
        items.add(item) if op == "add" else items.discard(item) if op == "remove" else None
        made.append((op, item, "true" if was != (op == "add") else "false"))
    return made


def map_calls(chance, count, values):
    pairs, made = {}, []
    for _ in range(count):
        op, key = chance.choice(["put", "put", "get", "get", "delete"]), chance.randrange(max(1, values // 8))
        if op == "put":
            pairs[key] = chance.randrange(values)
            made.append((op, (key, pairs[key]), OKAY))
        elif op == "get":
            made.append((op, key, pairs.get(key, "null")))
        else:
            made.append((op, key, "true" if pairs.pop(key, None) is not None else "false"))
    return made


def mutex_calls(chance, count, values):
    return [("try_lock", None, "false") if chance.random() < 0.8 else ("lock", None, OKAY) for _ in range(count)]


KINDS = {
    "register": register_calls,
    "counter": counter_calls,
    "queue": buffer_calls("enq", "deq", 0),
    "stack": buffer_calls("push", "pop", -1),
    "set": set_calls,
    "map": map_calls,
    "mutex": mutex_calls,
}


def spoilt(chance, made):
    """Two replies of one operation, each in the place of the other, where they differ; else one that no order gives."""
    op = chance.choice([one[0] for one in made if one[2] != OKAY] or [made[0][0]])
    places = [place for place, one in enumerate(made) if one[0] == op]
    one, other = chance.choice(places), chance.choice(places)
    replies = made[one][2], made[other][2]
    made[one], made[other] = (*made[one][:2], replies[1]), (*made[other][:2], replies[0])
    if replies[0] == replies[1] and isinstance(replies[0], int):
        made[one] = (*made[one][:2], replies[0] + 1)
    return made


def at_once(kind, chance, count, waves, share, values):
    """So many calls, each of a process of its own, in so many waves; so many in a hundred of them never return."""
    made = spoilt(chance, KINDS[kind](chance, count, values))
    yield declared("x", kind)
    of_wave = count // waves
    for wave in range(waves):
        here = list(range(wave * of_wave, (wave + 1) * of_wave))
        chance.shuffle(here)
        for place in here:
            yield call(place, "x", made[place][0], made[place][1])
        chance.shuffle(here)
        for place in here:
            if chance.random() * 100 >= share:
                yield returned(place, "x", made[place][2])


def shape(kind, seed):
    """A history of thousands of calls at once, of this seed."""
    chance = random.Random(f"{kind} {seed}")
    count = chance.choice([1000, 2000, 4000, 8000])
    waves = chance.choice([1, 1, 2, 8])
    share = chance.choice([0, 0, 5, 40])
    values = chance.choice([2, 8, 64, 100_000])
    return at_once(kind, chance, count, waves, share, values)


# ---- what was found to take long


def tries(count, is_held):
    """So many tries at once that answer 'no', of a mutex that is held or not, and an unlock by one that does not hold it."""
    yield declared("m", "mutex")
    if is_held:
        yield call(0, "m", "lock")
        yield returned(0, "m", OKAY)
    for process in range(1, count + 1):
        yield call(process, "m", "try_lock")
    for process in range(1, count + 1):
        yield returned(process, "m", "false")
    yield call(1, "m", "unlock")
    yield returned(1, "m", OKAY)


def rounds_then_tries(rounds, count):
    """So many rounds in turn, and then so many tries at once that answer 'no'."""
    yield declared("m", "mutex")
    for _ in range(rounds):
        for op in ("lock", "unlock"):
            yield call(0, "m", op)
            yield returned(0, "m", OKAY)
    yield from list(tries(count, False))[1:]


def mutexes(objects, calls):
    """So many mutexes of so many calls, each taken and given back by thousands of processes; at the end two hold each."""
    names = [f"m{number}" for number in range(objects)]
    for name in names:
        yield declared(name, "mutex")
    for number, name in enumerate(names):
        first = number * calls
        for process in range(first, first + calls // 2 - 1):
            yield call(process, name, "lock")
        for process in range(first, first + calls // 2 - 1):
            yield returned(process, name, OKAY)
            yield call(process, name, "unlock")
            yield returned(process, name, OKAY)
        for process in (first + calls, first + calls + 1):
            yield call(process, name, "lock")
            yield returned(process, name, OKAY)


def refuted_queue(processes, most, calls, spoil):
    """A queue of numbers of 8 jobs, which holds at most so many, with two results in each other's place or one taken twice."""
    return lines("j", "queue", spoil(simulated(RepeatedQueue(8, most), processes, calls), "deq"))


def chained_cas(count):
    """So many calls of `cas` at once, each from what another one wrote, and two from the same."""
    yield declared("x", "register")
    for value in range(count):
        yield call(value, "x", "cas", (value, value + 1))
    yield call(count, "x", "cas", (0, count + 5))
    for process in range(count + 1):
        yield returned(process, "x", "true")


def lost_items(count, pending):
    """So many items, put in turn, of which none is taken, beside pending takers; and a call that finds the queue empty."""
    yield declared("q", "queue")
    for process in range(1, pending + 1):
        yield call(process, "q", "deq")
    for item in range(count):
        yield call(0, "q", "enq", item)
        yield returned(0, "q", OKAY)
    for item in range(count):
        yield call(0, "q", "deq")
        yield returned(0, "q", "null")


def found_empty(items, calls):
    """So many items, each taken once the next one is there, beside so many calls that found the queue empty, and an item that nobody
    put."""
    yield declared("q", "queue")
    yield from [call(1, "q", "enq", 0), returned(1, "q", OKAY)]
    for process in range(3, 3 + calls):
        yield call(process, "q", "deq")
    for item in range(1, items):
        yield from [call(1, "q", "enq", item), returned(1, "q", OKAY), call(2, "q", "deq"), returned(2, "q", item - 1)]
    yield from [call(2, "q", "deq"), returned(2, "q", items - 1)]
    for process in range(3, 3 + calls):
        yield returned(process, "q", "null")
    yield from [call(2, "q", "deq"), returned(2, "q", items)]


FOUND = {
    "tries_1000_held": lambda: tries(1000, True),
    "tries_1000_free": lambda: tries(1000, False),
    "tries_8000_free": lambda: tries(8000, False),
    "rounds_900_tries_32": lambda: rounds_then_tries(900, 32),
    "rounds_1000_tries_16": lambda: rounds_then_tries(1000, 16),
    "rounds_2000_tries_1000": lambda: rounds_then_tries(2000, 1000),
    "mutexes_16": lambda: mutexes(16, 16384),
    "jobs_1500": lambda: refuted_queue(12, 60, 1500, with_swapped_results),
    "jobs_3000": lambda: refuted_queue(30, 60, 3000, with_swapped_results),
    "jobs_6000": lambda: refuted_queue(12, 20, 6000, with_item_taken_twice),
    "cas_4000": lambda: chained_cas(4000),
    "cas_16000": lambda: chained_cas(16000),
    "found_empty_8000": lambda: found_empty(4000, 8000),
    "lost_items_4000": lambda: lost_items(4000, 8),
    "lost_items_8000_pending_300": lambda: lost_items(8000, 300),
}


def wanted(asked):
    """The histories by name."""
    found = dict(FOUND)
    for kind in KINDS:
        for seed in range(FOR_EACH if asked.all else asked.few):
            found[f"{kind}_{seed}"] = lambda kind=kind, seed=seed: shape(kind, seed)
    return {name: made for name, made in found.items() if not asked.names or name.startswith(tuple(asked.names))}


def took(program, way, path):
    """How long the program took of a processor, and how it ended."""

    def bounded():
        resource.setrlimit(resource.RLIMIT_CPU, (ENDED, ENDED + 1))

    words = [program, "--seconds", str(SECONDS), "--workers", "1", *way]
    with open(path, "rb") as text:
        it = subprocess.Popen(words, stdin=text, stdout=subprocess.DEVNULL, stderr=subprocess.DEVNULL, preexec_fn=bounded)
        _, status, used = os.wait4(it.pid, 0)
        it.returncode = os.waitstatus_to_exitcode(status)
    return used.ru_utime + used.ru_stime, it.returncode


def tried(asked, name, made, room):
    """What the program took for one history, in each way."""
    path, faulty = Path(room) / name, Path(room) / f"{name}.faulty"
    path.write_text("".join(made()))
    faulty.write_text(path.read_text() + FAULTY)
    reading = took(asked.program, [], faulty)[0]
    results = [(seconds - reading, status, name, " ".join(way)) for way in WAYS for seconds, status in [took(asked.program, way, path)]]
    path.unlink()
    faulty.unlink()
    return results


def main():
    words = argparse.ArgumentParser(description=__doc__, formatter_class=argparse.RawDescriptionHelpFormatter)
    words.add_argument("program")
    words.add_argument("--all", action="store_true")
    words.add_argument("--few", type=int, default=2, help="how many of each kind, without --all")
    words.add_argument("--jobs", type=int, default=max(1, len(os.sched_getaffinity(0)) // 2))
    words.add_argument("names", nargs="*")
    asked = words.parse_args()
    asked.program = os.path.abspath(asked.program)
    if not os.access(asked.program, os.X_OK):
        print(f"seconds: {asked.program} is no program", file=sys.stderr)
        sys.exit(70)
    histories = wanted(asked)
    with tempfile.TemporaryDirectory() as room, ThreadPoolExecutor(asked.jobs) as pool:
        runs = [pool.submit(tried, asked, name, made, room) for name, made in histories.items()]
        results = sorted((one for run in runs for one in run.result()), reverse=True)
    wrong = [one for one in results if one[0] > MOST or one[1] not in ANSWERS]
    for seconds, status, name, way in wrong:
        ended = f"status {status}" if status >= 0 else signal.Signals(-status).name
        print(f"{name} {way}: {seconds:.2f} seconds, {ended}")
    print(f"{len(results)} runs of {len(histories)} histories, {len(wrong)} too long; the longest took {results[0][0]:.2f} seconds")
    sys.exit(1 if wrong else 0)


if __name__ == "__main__":
    signal.signal(signal.SIGINT, signal.SIG_DFL)
    main()
