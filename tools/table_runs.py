#!/usr/bin/env python3
"""Runs of the calls on a table, worked out apart from the code by docs/RULES.md (8 to 11).

Writes crates/table_runs/src/steps.rt (the steps) and crates/table_runs/stdout (what the program must print).
With --check it writes nothing and fails where a file differs from what it would write.

A step is an operation and two numbers: fresh (order, metric), add or remove (first national, how many), range with the largest radius (first day, 0), nearest
(first day, k). An item's day is its national. The program makes every table with the same weights. Nothing that it prints depends on them.
"""
import sys
from pathlib import Path

CRATE = Path(__file__).resolve().parent.parent / "crates" / "table_runs"
FRESH, ADD, REMOVE, RANGE, NEAREST = range(5)
# Of each operation the name of its step in the program, and how many of the two numbers it has.
STEPS = (("Fresh", 2), ("Add", 2), ("Remove", 2), ("Range", 1), ("Nearest", 2))
NO_BUCKET = 0


def cost(n):
    return 0 if n < 2 else n - 1 + cost(n // 2) + cost(n - 1 - n // 2)


class Bucket:
    def __init__(self, items=()):
        self.built = len(items)
        self.live = list(items)


class Table:
    """Buckets with their live items. Where an item's slot lies plays no part in sizes, refusals and builds."""

    def fresh(self, order, metric):
        self.order, self.days = order, {}
        self.buckets = [Bucket() for _ in range(order + 1)]
        return 0, 0, 0

    def build(self, emptied, k, items):
        for j in emptied:
            self.buckets[j] = Bucket()
        self.buckets[k] = Bucket(items)
        return cost(len(items))

    def home(self, tag):
        return next((k for k, b in enumerate(self.buckets) if tag in b.live), None)

    def add(self, tag, day):
        if day == 0:
            return 33, 0, 0
        if self.home(tag) is not None:
            return 20, 0, 0
        if sum(len(b.live) for b in self.buckets) == 2**self.order:
            return 22, 0, 0
        self.days[tag] = day
        k = next((j for j, b in enumerate(self.buckets) if b.built == 0), self.order + 1)
        items = [tag] + [i for b in self.buckets[:k] for i in b.live]
        target = k if 2 * len(items) > 2**k else k - 1
        return 0, target, self.build(range(k), target, items)

    def remove(self, tag):
        k = self.home(tag)
        if k is None:
            return 21, 0, 0
        here = self.buckets[k]
        here.live.remove(tag)
        live = len(here.live)
        if live == 0:
            self.buckets[k] = Bucket()
            return 0, NO_BUCKET, 0
        if 4 * live > 2**k:
            return 0, NO_BUCKET, 0
        if self.buckets[k - 1].built:
            below = self.buckets[k - 1].live
            target = k if len(below) > 2 ** (k - 2) else k - 1
            return 0, NO_BUCKET, self.build((k, k - 1), target, here.live + below)
        if self.buckets[k - 2].built:
            return 0, NO_BUCKET, self.build((k, k - 2), k - 1, here.live + self.buckets[k - 2].live)
        return 0, NO_BUCKET, self.build((k,), k - 2, here.live)

    def range(self, first_day):
        """With the largest radius every slot is visited, and every live item reported that is not of an earlier day."""
        found = sum(self.days[tag] >= first_day for b in self.buckets for tag in b.live)
        return 0, found, sum(b.built for b in self.buckets)

    def nearest(self, first_day, k):
        """With k as large as the table both tests pass at every slot."""
        return (5, 0, 0) if k == 0 else self.range(first_day)


def removals(k):
    """Each of remove's four cases at bucket k, in a table of order k whose bucket k is full at first."""
    full, quarter, half = 2**k, 2 ** (k - 2), 2 ** (k - 1)
    start = [(FRESH, k, 0), (ADD, 1, full)]
    old, new = 1, full + 1
    yield start + [(REMOVE, old, full - quarter)]
    yield start + [(REMOVE, old, quarter), (ADD, new, quarter), (REMOVE, old + quarter, full - 2 * quarter)]
    yield start + [(REMOVE, old, half), (ADD, new, half), (REMOVE, old + half, quarter)]
    yield start + [(REMOVE, old, half), (ADD, new, half), (REMOVE, new, quarter), (REMOVE, old + half, quarter)]


def all_in_use(order, metric):
    """Every bucket in use and the table not full, so that the next add finds no empty bucket."""
    steps, first = [(FRESH, order, metric)], 1
    for k in range(order, -1, -1):
        keep = 2**k // 4 + 1
        steps += [(ADD, first, 2**k), (REMOVE, first, 2**k - keep)]
        first += 2**k
    return [s for s in steps if s[0] == FRESH or s[2]] + [(ADD, first, 1)]


def since(day):
    """Searches from this day on, from the next, and from the last that there is."""
    return [(RANGE, day, 0), (RANGE, day + 1, 0), (NEAREST, day, 4096), (NEAREST, 2**16 - 1, 4096)]


def runs():
    yield [(FRESH, 3, 0), (RANGE, 0, 0), (NEAREST, 0, 5), (NEAREST, 0, 0), (NEAREST, 1, 5)]
    yield [(FRESH, 0, 0), (ADD, 0, 1), (ADD, 1, 1), (ADD, 2, 1), (ADD, 1, 1), (ADD, 0, 1), (RANGE, 0, 0), (REMOVE, 1, 2)]
    for k in (2, 3, 12):
        for steps in removals(k):
            yield steps + [(RANGE, 0, 0), (NEAREST, 0, 4096)] + since(2**k)
    for order, metric in ((2, 1), (3, 2), (12, 1)):
        yield all_in_use(order, metric) + [(RANGE, 0, 0)]


def outcome(table, step):
    """The last reply of a step, and the distances of all its calls together."""
    kind, a, b = step
    if kind == FRESH:
        return table.fresh(a, b), 0
    if kind == RANGE:
        return table.range(a), 0
    if kind == NEAREST:
        return table.nearest(a, b), 0
    last, total = (0, 0, 0), 0
    for tag in range(a, a + b):
        last = table.add(tag, tag) if kind == ADD else table.remove(tag)
        total += last[2]
    return last, total


def output(steps):
    table, lines = Table(), []
    for step in steps:
        last, total = outcome(table, step)
        sizes = [n for b in table.buckets for n in (b.built, len(b.live))]
        lines.append(" ".join(map(str, [step[0], *last, total, *sizes])))
    return "\n".join(lines) + "\n"


def source(steps):
    lines = ["// The steps, as tools/table_runs.py writes them.", "use crate::Step;", "", f"pub const STEPS: [Step; {len(steps)}] = ["]
    for kind, *numbers in steps:
        name, count = STEPS[kind]
        lines.append(f"    Step::{name}({', '.join(map(str, numbers[:count]))}),")
    return "\n".join(lines) + "\n];\n"


def main():
    steps = [s for run in runs() for s in run]
    files = {CRATE / "src" / "steps.rt": source(steps), CRATE / "stdout": output(steps)}
    for path, text in files.items():
        if "--check" not in sys.argv[1:]:
            path.parent.mkdir(parents=True, exist_ok=True)
            path.write_text(text)
        elif path.read_text() != text:
            sys.exit(f"{path.name} is not what the script writes")


if __name__ == "__main__":
    main()
