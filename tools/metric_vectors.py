#!/usr/bin/env python3
"""Vectors for the metric crate, worked out apart from it by docs/RULES.md (2 and 3).

Writes crates/metric_vectors/src/vectors.rt (the table) and crates/metric_vectors/stdout (what the program must print).
With --check it writes nothing and fails where a file differs from what it would write.
"""
import random
import struct
import sys
from pathlib import Path

from layout import constant, field

CRATE = Path(__file__).resolve().parent.parent / "crates" / "metric_vectors"
LOW, HIGH = -(2**31), 2**31 - 1
WORD = 2**64 - 1
LIMIT = 1_000_000
NATIONALS, LAST_NATIONAL = 10**12, 2**38 - 1
STEPS = (0, 1, 5, 11)
METRICS = (0, 1, 2)
NO_METRIC = 2**32 - 1  # no call takes it; the distance reads it as 2
MOST_DISTANCE = 2**32 - 1
ONES = (1, 1, 1, 1)
# With the first a difference of 2^31 is the least that saturates, and of 2^31 - 1 the largest that does not.
WEIGHTS = ((2, 1, 1, 1), (3, 0, 100, 1), (100, 100, 100, 100))
# Of the objects in turn: a row holds any 32 bits there.
DAYS = (1, 2**16 - 1, 0, 2**16, 2**32 - 1, 300, 2**31)


def valid_tag(tag):
    country, national = divmod(tag, NATIONALS)
    return 1 <= country <= 999 and national <= LAST_NATIONAL


def valid_measures(measures):
    return all(-LIMIT <= m <= LIMIT for m in measures)


def distance(metric, weights, p, q):
    if metric == 1:
        return sum(bin(a ^ b).count("1") for a, b in zip(p[1], q[1]))
    weighted = [min(w * abs(a - b), MOST_DISTANCE) for w, a, b in zip(weights, p[0], q[0])]
    return min(sum(weighted), MOST_DISTANCE) if metric == 0 else max(weighted)


def row(tag, profile, threshold, mark, day):
    """The record of the image, tag first, as little-endian words, the day as a whole one."""
    fields = struct.pack("<Q4i2Q3I", tag, *profile[0], *profile[1], threshold, mark, day)
    return struct.unpack(f"<{len(fields) // 4}I", fields)


def objects():
    """Tag, measures, code, threshold, mark, day. Those that are next to each other are compared."""
    first, last = NATIONALS, 999 * NATIONALS + LAST_NATIONAL
    items = [
        (first, [0, 0, 0, 0], [0, 0], 0, 0),
        (last, [LIMIT] * 4, [WORD, WORD], 2**32 - 1, 1),
        (first - 1, [-LIMIT] * 4, [0, 0], 0, 2**32 - 1),
        (last + 1, [LOW] * 4, [WORD, 0], 8_000_000, 0),
        (WORD, [HIGH] * 4, [0, WORD], 1, 2),
        (0, [LOW] * 4, [1, 2**63], 0, 0),
        (2**32 - 1, [HIGH, LOW, HIGH, LOW], [2**32, 2**31], 0, 0),
        (2**32, [LOW, HIGH, LOW, HIGH], [2**32 - 1, 2**63 - 1], 0, 0),
        # sums of 2^32 - 1 and of 2^32: the largest that is kept, and the first that is not
        (first + 1, [HIGH, 0, 0, 0], [0, 0], 0, 0),
        (first + 2, [LOW, 0, 0, 0], [0, 1], 0, 0),
        (first + 3, [HIGH, 1, 0, 0], [2, 0], 0, 0),
        (first + 4, [LOW, 0, 0, 0], [0, 0], 0, 0),
        # the largest difference one more than the next, at the ends of 32 bits: in the second place, and then in the last
        (first + 7, [LOW, HIGH, LOW + 1, HIGH], [0, 0], 0, 0),
        (first + 8, [HIGH - 1, LOW, HIGH, LOW + 1], [0, 0], 0, 0),
        (first + 9, [0, HIGH, LOW, LOW], [0, 0], 0, 0),
        (first + 10, [HIGH, 0, -1, 0], [0, 0], 0, 0),
        (first + 5, [-1, 0, 1, 0], [0xAAAAAAAAAAAAAAAA, 0x5555555555555555], 0, 0),
        (first + 6, [0, -1, 0, 1], [0x5555555555555555, 0xAAAAAAAAAAAAAAAA], 0, 0),
    ]
    for at in range(4):
        for past in (LIMIT + 1, -LIMIT - 1):
            measures = [LIMIT, -LIMIT, LIMIT, -LIMIT]
            measures[at] = past
            items.append((first + 16 + at, measures, [1 << (16 * at), 1 << (63 - 16 * at)], at, at % 2))
    draw = random.Random(20)
    for k in range(10):
        bound = (HIGH, LIMIT, 300)[k % 3]
        items.append((
            draw.randint(0, WORD) if k % 2 else draw.randint(1, 999) * NATIONALS + draw.randint(0, LAST_NATIONAL),
            [draw.randint(-bound, bound) for _ in range(4)],
            [draw.getrandbits(64), draw.getrandbits(64)],
            draw.getrandbits(32),
            draw.getrandbits(k),
        ))
    days = (DAYS[i % len(DAYS)] for i in range(len(items)))
    return [(tag, (measures, code), threshold, mark, day) for (tag, measures, code, threshold, mark), day in zip(items, days)]


def tags():
    """The last national and the next, at three countries; the ends of the countries; and numbers that are no tags."""
    edges = [country * NATIONALS + LAST_NATIONAL + past for country in (1, 36, 999) for past in (0, 1)]
    return edges + [0, NATIONALS - 1, NATIONALS, 10**15 - 1, 10**15, 10**15 + LAST_NATIONAL, 2**32, 2**63 - 1, WORD]


def table(items, tag_list):
    lines = ["// The vectors, as tools/metric_vectors.py writes them.", "use crate::Object;", "use metric_rules::Profile;", "", f"pub const OBJECTS: [Object; {len(items)}] = ["]
    for item in items:
        tag, (measures, code), threshold, mark, day = item
        lines += ["    Object {", f"        tag: {tag},", "        profile: Profile {", *field("measures", measures, " " * 12), *field("code", code, " " * 12), "        },"]
        lines += [f"        threshold: {threshold},", f"        mark: {mark},", f"        day: {day},", *field("row", row(*item), " " * 8), "    },"]
    lines += ["];", "", "// Numbers that are tags, or nearly.", *constant("NEAR_TAGS", "u64", tag_list)]
    return "\n".join(lines[:-1]) + "\n"


def output(items, tag_list):
    lines = []
    for item in items:
        tag, profile, threshold, mark, day = item
        words = " ".join(f"{w:08x}" for w in row(*item))
        code = " ".join(f"{c:016x}" for c in profile[1])
        lines += [words, f"{tag} 1 1 1 1 {code} {threshold} {mark} {day} {valid_tag(tag):d} {valid_measures(profile[0]):d}"]
    for i, (_, p, *_) in enumerate(items):
        for step in STEPS:
            q = items[(i + step) % len(items)][1]
            found = [distance(m, ONES, p, q) for m in (*METRICS, NO_METRIC, *METRICS)]
            found += [distance(m, weights, p, q) for weights in WEIGHTS for m in METRICS]
            lines.append(" ".join(map(str, found)))
    lines += [f"{t} {valid_tag(t):d}" for t in tag_list]
    return "\n".join(lines) + "\n"


def main():
    items, tag_list = objects(), tags()
    files = {CRATE / "src" / "vectors.rt": table(items, tag_list), CRATE / "stdout": output(items, tag_list)}
    for path, text in files.items():
        if "--check" not in sys.argv[1:]:
            path.write_text(text)
        elif path.read_text() != text:
            sys.exit(f"{path.name} is not what the script writes")


main()
