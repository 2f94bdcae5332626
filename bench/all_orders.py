"""What the scripts share that compare a program's answers to small random histories with all orders."""
import argparse
import functools
import random
import subprocess
import sys
import tempfile
from pathlib import Path

BENCH = Path(__file__).resolve().parent
sys.path[:0] = [str(BENCH.parent / "bin")]
from explanations import PENDING, precedes, read, same, step

AT_ONCE = 500  # files of one run of the program


def orders(kind, start, calls):
    """The least linearization, or None; and the first longest run. Both by all orders, with what was seen kept."""
    before = [{b for b, other in enumerate(calls) if precedes(other, call)} for call in calls]
    completed = {c for c, call in enumerate(calls) if call["returned"] is not PENDING}

    def nexts(lifted, state):
        for c, call in enumerate(calls):
            if c not in lifted and before[c] <= lifted:
                answer = step(kind, state, call["process"], call["op"], call["args"])
                if answer is not None and (c not in completed or same(answer[1], call["returned"][1])):
                    yield c, lifted | {c}, answer[0]

    @functools.cache
    def least(lifted, state):
        if completed <= lifted:
            return ()
        for c, after, new in nexts(lifted, state):
            rest = least(after, new)
            if rest is not None:
                return (c, *rest)
        return None

    @functools.cache
    def longest(lifted, state):
        best = ()
        for c, after, new in nexts(lifted, state):
            rest = longest(after, new)
            if len(rest) + 1 > len(best):
                best = (c, *rest)
        return best

    order = least(frozenset(), start)
    return order, longest(frozenset(), start) if order is None else None


def order_line(order):
    """What a program prints of the least linearization, or where there is none."""
    return "none" if order is None else " ".join(["order", *map(str, order)])


def words(description, count):
    """The options of such a script, where so many histories are asked about if it is not said."""
    parser = argparse.ArgumentParser(description=description, formatter_class=argparse.RawDescriptionHelpFormatter)
    parser.add_argument("--program")
    parser.add_argument("--count", type=int, default=count)
    parser.add_argument("--seed", type=int, default=1)
    parser.add_argument("--keep")
    return parser


def built(source, folder):
    """The program of this name, built into the folder."""
    import build_unproved

    build_unproved.build(Path(folder) / source, BENCH / f"{source}.program")
    return Path(folder) / source


def answers(program, options, texts, folder):
    """Each of the histories, by its file and its text, with what the program says of it."""
    files = [Path(folder) / f"{number}.jsonl" for number, _ in texts]
    for file, (_, text) in zip(files, texts):
        file.write_text(text)
    said = subprocess.run([program, *options, *files], capture_output=True, text=True, check=True).stdout.splitlines()
    if len(said) != len(files):
        sys.exit(f"{len(said)} answers to {len(files)} histories")
    return zip(files, (text for _, text in texts), said)


def compare(asked, source, history, wanted, options=()):
    """Asks the program of as many random histories as are asked for. `history` makes the text of one, of a source of chance and its
    number, and `wanted` tells what is to be said of it, of its kind, start and calls and of what was said. Prints each that differs;
    the others are removed. How many differ."""
    chance, differ = random.Random(asked.seed), 0
    with tempfile.TemporaryDirectory() as folder:
        program = asked.program or built(source, folder)
        for first in range(0, asked.count, AT_ONCE):
            texts = [(number, history(chance, number)) for number in range(first, min(first + AT_ONCE, asked.count))]
            for file, text, said in answers(program, options, texts, asked.keep or folder):
                ((_, kind, start, calls),) = read(text)
                right = wanted(kind, start, calls, said)
                if said == right:
                    file.unlink()
                else:
                    differ += 1
                    print(f"{file}: {said}, and by all orders {right}")
    return differ
