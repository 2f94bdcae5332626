#!/usr/bin/env python3
"""Times `lincheck` beside `bench/search.rs`, a fast search without a proof that gives the same answers.

    bench/run.py [--only FAMILY].. [--quick] [--runs N] [--cpu] [--timeout SECONDS] [--bin PATH] [--beside NAME]
                 [--alone | --write | --workers N.. [--shards N..] [--size SIZE]]

Needs the built program (`bin/lincheck` builds it), or the one at PATH, and `rustc`. Prints one table for each family of
`bench/histories.py` (those whose name begins with FAMILY), one line for each size (with --quick the smaller half), and
one of all families at their last size; last the geometric mean of the times where there are 10,000 lifts or more:

  seconds        the least wall time of N runs of each program, in turn (with --cpu their processor time, which says more where
                 the machine does other work too), and how many times the second's the first's is
  lifts, stored  of all searches of the history, as the second program counts them
  ns/lift        of the search alone: the whole time less that of reading, which is timed on the same text with a faulty
                 line at its end, so that all of it is read and nothing is searched
  MB             the most memory that each held (without /usr/bin/time some 16 at least, which is this script's share)
  B/stored       that less the most that it held for reading, by the configurations that its largest table stored; '-'
                 where it is too little to tell
  growth         lifts and seconds of each, by those of the size before

Both programs' answers are compared; `lincheck` runs with one worker. A run that takes longer than the timeout is ended,
and its numbers are left out.

With --beside layout the second program is `bench/layout.rs`: the same search without a proof, over structures laid out as
those of `lincheck`.

With --alone `lincheck` is timed by itself, as for a queue with a backlog, which the second program can't do: seconds and MB.

With --write the tables of docs/PERFORMANCE.md are measured and written: each row names its family and size, and gets the processor
seconds and megabytes of `lincheck` by itself.

With --workers N `lincheck` with N workers is timed beside `lincheck` with one, in turn, at the last size of each family, or
at SIZE. Both --workers and --shards may be given more than once. With one worker a cell has seconds by the clock and processor
seconds, the middle of the runs. With more it has how many times those of one worker in the same turn they are: the middle of
the turns, by the clock with the least and the most in brackets.
"""
import argparse
import math
import os
import re
import shutil
import signal
import statistics
import subprocess
import sys
import tempfile
import threading
import time
from pathlib import Path
from typing import NamedTuple

HERE = Path(__file__).parent
sys.path.insert(0, str(HERE))
from histories import FAMILIES, FAULTY

LINCHECK = HERE.parent / "crates" / "lincheck_program" / "out" / "lincheck_program"
PAGE = HERE.parent / "docs" / "PERFORMANCE.md"
PAGE_ROW = re.compile(r"^(\| .* \| `(\w+) (\d+)` \|) [^|]+ \| [^|]+ \|$", re.M)
TIME = Path("/usr/bin/time")
MEASURING = [TIME, "-q", "-f", "peak %M"] if TIME.exists() else []
TELLING = 4_000_000  # bytes: less than that may be what the allocator keeps
MANY = 10_000  # configurations: with fewer, what else the search holds counts


class Run(NamedTuple):
    seconds: float
    processor: float  # seconds
    searching: float | None  # seconds, where the program tells them
    peak: float  # bytes
    status: int
    answer: list[bytes]  # the first two lines
    told: dict[str, float]  # what stands on standard error, as 'word number'


def run_once(program, text, options):
    """One run on the text; None where it took too long."""
    with open(text, "rb") as source, tempfile.TemporaryFile() as out, tempfile.TemporaryFile() as err:
        command = [*MEASURING, *program]
        started = time.perf_counter()
        child = subprocess.Popen(command, stdin=source, stdout=out, stderr=err, start_new_session=True)
        late = threading.Timer(options.timeout, os.killpg, (child.pid, signal.SIGKILL))
        late.start()
        _, status, used = os.wait4(child.pid, 0)
        seconds = time.perf_counter() - started
        late.cancel()
        child.returncode = os.waitstatus_to_exitcode(status)
        if child.returncode < 0 and seconds >= options.timeout:
            return None
        out.seek(0)
        err.seek(0)
        words = [line.split() for line in err.read().decode().splitlines()]
        told = {line[0]: float(line[1]) for line in words if len(line) == 2}
        peak = 1024 * told.get("peak", used.ru_maxrss)
        answer = [out.readline(), out.readline()]
        processor = used.ru_utime + used.ru_stime
        if options.cpu:
            return Run(processor, processor, None, peak, child.returncode, answer, told)
        return Run(seconds, processor, told.get("search"), peak, child.returncode, answer, told)


def run_in_turn(programs, text, options):
    """The quickest of each program's runs on the text, by the search alone where the program tells how long that took. The
    programs run in turn, since the machine's speed may change meanwhile; one that takes long runs once."""
    found = [[] for _ in programs]
    for _ in range(options.runs):
        for program, runs in zip(programs, found):
            if not runs or (runs[-1] and runs[-1].seconds <= options.timeout / 10):
                runs.append(run_once(program, text, options))
    return [None if None in runs else min(runs, key=lambda one: one.searching or one.seconds) for runs in found]


class Measured(NamedTuple):
    """What one program took for one history."""

    seconds: float
    searching: float  # seconds
    peak: float  # bytes
    more: float  # bytes, over reading alone


def geometric_mean(ratios):
    return math.exp(sum(map(math.log, ratios)) / len(ratios))


def measured(whole, reading):
    searching = max(whole.seconds - reading.seconds, 0) if whole.searching is None else whole.searching
    return Measured(whole.seconds, searching, whole.peak, whole.peak - reading.peak)


BOTH = ["lincheck", "plain"]
HEAD = ["size", "seconds", "", "times", "lifts", "stored", "ns/lift", "", "MB", "", "B/stored", "", "growth: lifts", "seconds", ""]
UNDER = ["", *BOTH, "", "", "", *BOTH, *BOTH, *BOTH, "", *BOTH]


def ratio(value, other, form="%.1f"):
    return form % (value / other) if value is not None and other else "-"


def per_stored(one, stored):
    return f"{one.more / stored:.0f}" if one and stored >= MANY and one.more >= TELLING else "-"


def row(size, ours, plain, told, before):
    """The cells of a line; `before` is what was measured of the size before."""
    lifts, stored, held = told.get("lifts", 0), told.get("stored", 0), told.get("held", 0)
    cells = [str(size)]
    cells += ["-" if one is None else f"{one.seconds:.4f}" for one in (ours, plain)]
    cells += [ratio(ours and ours.seconds, plain.seconds, "%.2f"), f"{lifts:.0f}", f"{stored:.0f}"]
    cells += [ratio(one and 1e9 * one.searching, lifts, "%.0f") for one in (ours, plain)]
    cells += ["-" if one is None else f"{one.peak / 1e6:.1f}" for one in (ours, plain)]
    cells += [per_stored(one, held) for one in (ours, plain)]
    if before:
        cells += [ratio(lifts, before[2])]
        cells += [ratio(now and now.seconds, then and then.seconds) for now, then in ((ours, before[0]), (plain, before[1]))]
    else:
        cells += ["", "", ""]
    return cells


def measure(family, size, programs, room, options):
    """What each program took for the history of this size, and what the second told."""
    text, faulty = room / "text", room / "faulty"
    with open(text, "w") as whole:
        whole.writelines(family.history(size))
    shutil.copyfile(text, faulty)
    with open(faulty, "a") as more:
        more.write(FAULTY)
    wholes = run_in_turn(programs, text, options)
    readings = run_in_turn(programs, faulty, options)
    ours, plain = wholes
    assert plain, "the comparison program took too long"
    for one in filter(None, wholes):
        assert one.status == family.status, (family, size, one)
    if ours and family.status < 2:
        assert ours.answer[: 1 + family.status] == plain.answer[: 1 + family.status], (ours.answer, plain.answer)
    took = [measured(whole, reading) if whole else None for whole, reading in zip(wholes, readings)]
    return took[0], took[1], plain.told


def alone(family, size, room, options):
    """What `lincheck` took for the history of this size; None where it took too long."""
    text = room / "text"
    with open(text, "w") as whole:
        whole.writelines(family.history(size))
    (one,) = run_in_turn([[options.bin, "--workers", "1"]], text, options)
    assert one is None or one.status == family.status, (family, size, one)
    return one


def alone_row(family, size, room, options):
    """The cells of a line."""
    one = alone(family, size, room, options)
    return [str(size), *(["-", "-"] if one is None else [f"{one.seconds:.4f}", f"{one.peak / 1e6:.1f}"])]


def page_row(found, room, options):
    """A row of the page, measured anew."""
    one = alone(FAMILIES[found[2]], int(found[3]), room, options)
    if one is None:
        return f"{found[1]} none in {options.timeout:.0f} | - |"
    return f"{found[1]} {f'{one.seconds:.2f}' if one.seconds >= 0.01 else 'under 0.01'} | {one.peak / 1e6:.0f} |"


def measure_workers(family, size, kinds, room, options):
    """The runs of the history of this size with one worker, and then with each of these numbers of workers and shards. All
    run in turn, since the machine's speed may change meanwhile; None where one took too long."""
    text = room / "text"
    with open(text, "w") as whole:
        whole.writelines(family.history(size))
    programs = [[options.bin, "--workers", str(workers), "--shards", str(shards)] for workers, shards in [(1, 16), *kinds]]
    runs = [[run_once(program, text, options) for program in programs] for _ in range(options.runs)]
    for one in filter(None, sum(runs, [])):
        assert one.status == family.status, (family, one)
        assert one.answer == (runs[0][0] or one).answer, (runs[0][0].answer, one.answer)
    return [None if None in column else column for column in zip(*runs)]


def spread(ratios):
    return f"{statistics.median(ratios):.2f} ({min(ratios):.2f} to {max(ratios):.2f})"


def times_cell(runs, alone):
    """How many times those of one worker these runs take, by the clock and in processor time."""
    if runs is None or alone is None:
        return "-"
    turns = list(zip(runs, alone))
    clock = spread([run.seconds / one.seconds for run, one in turns])
    return f"{clock} / {statistics.median(run.processor / one.processor for run, one in turns):.2f}"


def alone_cell(alone):
    if alone is None:
        return "-"
    return f"{statistics.median(one.seconds for one in alone):.3f} / {statistics.median(one.processor for one in alone):.3f}"


def workers_row(name, alone, *others):
    """The cells of a line."""
    return [name, alone_cell(alone), *(times_cell(runs, alone) for runs in others)]


def tell(title, rows):
    """Prints a table as Markdown; its first row, or its first two, are its head."""
    widths = [max(map(len, column)) for column in zip(*rows)]
    print(f"\n{title}\n")
    for cells in [rows[0], ["-" * width for width in widths], *rows[1:]]:
        print("| " + " | ".join(cell.rjust(width) for cell, width in zip(cells, widths)) + " |", flush=True)


def main():
    parser = argparse.ArgumentParser(description=__doc__, formatter_class=argparse.RawDescriptionHelpFormatter)
    parser.add_argument("--only", action="append", default=[], metavar="FAMILY")
    parser.add_argument("--quick", action="store_true")
    parser.add_argument("--runs", type=int, default=5)
    parser.add_argument("--cpu", action="store_true", help="processor time in place of wall time")
    parser.add_argument("--timeout", type=float, default=120)
    parser.add_argument("--bin", type=Path, default=LINCHECK)
    parser.add_argument("--beside", choices=["search", "layout", "small_sets"], default="search", help="the program without a proof")
    parser.add_argument("--alone", action="store_true", help="lincheck by itself")
    parser.add_argument("--write", action="store_true", help="the tables of docs/PERFORMANCE.md")
    parser.add_argument("--workers", type=int, action="append", metavar="N", help="one worker beside so many")
    parser.add_argument("--shards", type=int, action="append", metavar="N", help="with --workers: so many shards")
    parser.add_argument("--size", type=int, help="with --workers: in place of the last size")
    options = parser.parse_args()
    chosen = {
        name: family
        for name, family in FAMILIES.items()
        if not options.only or any(name.startswith(begin) for begin in options.only)
    }
    with tempfile.TemporaryDirectory() as folder:
        room = Path(folder)
        if options.write:
            options.cpu = True
            PAGE.write_text(PAGE_ROW.sub(lambda found: page_row(found, room, options), PAGE.read_text()))
            return None
        if options.workers:
            kinds = [(workers, shards) for workers in options.workers for shards in options.shards or [16]]
            rows = [["", "1 worker", *(f"{workers} workers, {shards} shards" for workers, shards in kinds)]]
            for name, family in chosen.items():
                size = options.size or family.sizes[-1]
                rows.append(workers_row(f"{name} {size}", *measure_workers(family, size, kinds, room, options)))
            return tell("By the clock / processor time", rows)
        if options.alone:
            for name, family in chosen.items():
                rows = [alone_row(family, size, room, options) for size in family.sizes]
                tell(f"`{name}`: {family.what}; size: {family.unit}", [["size", "seconds", "MB"], *rows])
            return None
        source, flags = HERE / f"{options.beside}.rs", []
        if options.beside == "small_sets":
            source, flags = HERE / "layout.rs", ["--cfg", "small_sets"]
        subprocess.run(["rustc", "--edition", "2021", "-O", *flags, "-o", room / "search", source], check=True)
        last, ratios = [["", *HEAD], ["", *UNDER]], []
        for name, family in chosen.items():
            rows, before = [HEAD, UNDER], None
            for size in family.sizes[: (len(family.sizes) + 1) // 2] if options.quick else family.sizes:
                programs = [options.bin, "--workers", "1"], [room / "search"]
                ours, plain, told = measure(family, size, programs, room, options)
                rows.append(row(size, ours, plain, told, before))
                before = ours, plain, told.get("lifts", 0)
                if ours and told.get("lifts", 0) >= MANY:
                    ratios.append(ours.seconds / plain.seconds)
            tell(f"`{name}`: {family.what}; size: {family.unit}", rows)
            last.append([name, *rows[-1]])
        tell("All families at their last size", last)
        if ratios:
            print(f"\nGeometric mean of the times of {len(ratios)} histories of {MANY} lifts or more: {geometric_mean(ratios):.2f}")


if __name__ == "__main__":
    main()
