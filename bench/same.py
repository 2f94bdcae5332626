#!/usr/bin/env python3
"""Compares two programs byte by byte, and how much processor time each takes.

    bench/same.py OLD NEW [--only TEXT] [--quick] [--jobs N] [--seconds N] [--folder DIR].. [--forms plain,explain,..] [--sums]

OLD and NEW are two builds of `lincheck` (`bin/build_unproved.py OUT`). Both answer each history of the tests' data, of
`examples/`, of each DIR and of the families of `bench/histories.py`, in each form: plain, explain, each, both, stats and under
some limits. With --quick the families have their smaller half of sizes and the two last are left out of the forms. A case of the tests' data is
answered with its own options too. Each run has so many seconds of processor time (20 if none are said); one that takes more is no answer.

Each difference is a line; so is each run that takes NEW more than 1.2 times what it takes OLD, and 0.05 s more. With --sums
the processor time of each family is printed. The last line is 'N same, M differ', and the exit status 1 where one differs.
"""
import argparse
import concurrent.futures
import os
import resource
import subprocess
import sys
import tempfile
from pathlib import Path
from typing import NamedTuple

HERE = Path(__file__).resolve().parent
sys.path.insert(0, str(HERE))
from histories import FAMILIES

TOP = HERE.parent
LIMITS = [1, 3, 1_000, 499_999, 500_000]
FORMS = {
    "plain": [],
    "explain": ["--explain"],
    "each": ["--each"],
    "both": ["--each", "--explain"],
    "stats": ["--stats", "--workers", "1"],
    **{f"limit{limit}": ["--limit", str(limit)] for limit in LIMITS},
}
QUICK = ["plain", "explain", "each", "both"]


class Answer(NamedTuple):
    status: int | None  # none where the time was up
    text: bytes
    seconds: float


class Case(NamedTuple):
    name: str
    path: Path
    options: list[str]


def answer(program, case, seconds):
    """What the program answers, within so many seconds of processor time."""
    with open(case.path, "rb") as text, tempfile.TemporaryFile() as out:
        child = subprocess.Popen(
            [program, *case.options], stdin=text, stdout=out, stderr=subprocess.DEVNULL,
            preexec_fn=lambda: resource.setrlimit(resource.RLIMIT_CPU, (seconds, seconds)))
        _, status, used = os.wait4(child.pid, 0)
        child.returncode = os.waitstatus_to_exitcode(status)
        out.seek(0)
        text = out.read()
    status = child.returncode if child.returncode >= 0 else None
    return Answer(status, text, used.ru_utime + used.ru_stime)


def compared(old, new, case, seconds):
    return case, answer(old, case, seconds), answer(new, case, seconds)


def unrolled(path):
    """The text of a file whose lines are pieces that are repeated, as the tests' data has them."""
    text = []
    for line in path.read_text().splitlines():
        times, piece = line.split(" ", 1)
        piece = piece.replace("\\n", "\n")
        text += [piece.replace("#", str(turn)) for turn in range(1, int(times) + 1)]
    return "".join(text)


def stored(room, folder):
    """The histories of a folder, and the options that each has of its own."""
    for path in sorted([*folder.glob("*.jsonl"), *folder.glob("*.jsonl.repeat")]):
        name = path.name.split(".")[0]
        if path.suffix == ".repeat":
            whole = room / f"{folder.name}-{name}.jsonl"
            whole.write_text(unrolled(path))
        else:
            whole = path
        options = folder / f"{name}.options"
        yield f"{folder.name}/{name}", whole, options.read_text().split() if options.exists() else []


def of_families(room, quick):
    for name, family in FAMILIES.items():
        sizes = family.sizes[: (len(family.sizes) + 1) // 2] if quick else family.sizes
        for size in sizes:
            path = room / f"{name}-{size}.jsonl"
            with open(path, "w") as text:
                text.writelines(family.history(size))
            yield f"{name} {size}", path, []


def cases(room, options):
    folders = [TOP / "examples", TOP / "crates" / "lin_tests" / "data", *options.folder]
    histories = [one for folder in folders for one in stored(room, folder)]
    for name, path, own in [*histories, *of_families(room, options.quick)]:
        if options.only and options.only not in name:
            continue
        for form in options.forms:
            yield Case(f"{name} {form}", path, FORMS[form])
        if own:
            yield Case(f"{name} own", path, own)


def main():
    parser = argparse.ArgumentParser(description=__doc__, formatter_class=argparse.RawDescriptionHelpFormatter)
    parser.add_argument("old")
    parser.add_argument("new")
    parser.add_argument("--only")
    parser.add_argument("--quick", action="store_true")
    parser.add_argument("--jobs", type=int, default=2)
    parser.add_argument("--seconds", type=int, default=20)
    parser.add_argument("--folder", type=Path, action="append", default=[])
    parser.add_argument("--forms", type=lambda text: text.split(","))
    parser.add_argument("--sums", action="store_true")
    options = parser.parse_args()
    options.forms = options.forms or (QUICK if options.quick else list(FORMS))
    same = differ = 0
    sums = {}
    with tempfile.TemporaryDirectory() as room, concurrent.futures.ThreadPoolExecutor(options.jobs) as pool:
        runs = pool.map(lambda case: compared(options.old, options.new, case, options.seconds), cases(Path(room), options))
        for case, old, new in runs:
            total = sums.setdefault(case.name.split()[0], [0.0, 0.0])
            total[0] += old.seconds
            total[1] += new.seconds
            if old[:2] != new[:2]:
                differ += 1
                what = "no answer in time" if new.status is None else "an answer now" if old.status is None else "DIFFERS"
                print(f"{case.name}: {what}, {old.seconds:.2f} and {new.seconds:.2f} s", flush=True)
            else:
                same += 1
                if new.seconds > 1.2 * old.seconds and new.seconds > old.seconds + 0.05:
                    print(f"{case.name}: slower, {old.seconds:.2f} and {new.seconds:.2f} s", flush=True)
    if options.sums:
        for name, (old, new) in sums.items():
            print(f"{name}: {old:.2f} {new:.2f}")
    print(f"all: {sum(s[0] for s in sums.values()):.1f} and {sum(s[1] for s in sums.values()):.1f} s of processor time")
    print(f"{same} same, {differ} differ")
    sys.exit(1 if differ else 0)


if __name__ == "__main__":
    main()
