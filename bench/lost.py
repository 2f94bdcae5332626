#!/usr/bin/env python3
"""Compares what the rest of a queue or a stack without its lost items tells with all orders.

    bench/lost.py [--program PROGRAM] [--count COUNT] [--seed SEED] [--keep FOLDER]

Builds `bench/lost.program` by `bin/build_unproved.py` (two minutes), unless it is given. The histories are those of `bench/fewer.py`, of
queues and stacks. Where the rest has no linearization, the whole must have none. Prints of each kind how many had none, of how many of
these the rest showed it, and each that differs. With --keep the histories that differ are kept.
"""
import collections
import sys

from all_orders import compare, orders, words
from fewer import history

KINDS = ["queue", "stack"]


def main():
    asked = words(__doc__, 10_000).parse_args()
    tally = collections.Counter()

    def wanted(kind, start, calls, said):
        order, _ = orders(kind, start, calls)
        tally[kind] += order is None
        tally[kind, said] += order is None
        return said if said != "none" or order is None else "some"

    differ = compare(asked, "lost", lambda chance, number: history(chance, KINDS[number % len(KINDS)]), wanted)
    for kind in KINDS:
        print(f"{kind}: {tally[kind]} without an order, of {tally[kind, 'none']} the rest has none")
    print(f"{asked.count} histories, {differ} differ")
    return 1 if differ else 0


if __name__ == "__main__":
    sys.exit(main())
