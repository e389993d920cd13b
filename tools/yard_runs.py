#!/usr/bin/env python3
"""Conversations with the program yard, worked out apart from the code by docs/RULES.md (18).

Writes tests/yard/NAME.in and NAME.out: what the program is given, and what it must print.
With --check it writes nothing and fails where a file differs from what it would write, or where examples/README.md shows another exchange.
With --run PROGRAM it runs the program on every stored input and fails where it prints anything else. Where an input is short and ends in a line feed it
runs it once more, each line byte by byte and the next one when the reply is there, as at a terminal; after a reply that ends the program it has to end
though more could come.
"""
import os
import re
import select
import subprocess
import sys
from pathlib import Path
from types import SimpleNamespace

sys.dont_write_bytecode = True
import table_runs
from image_runs import ONES, Space, distance, layout

ROOT = Path(__file__).resolve().parent.parent
STORED = ROOT / "tests" / "yard"
EXAMPLE = ROOT / "crates" / "yard"
MOST_ORDER, LAST_METRIC = 8, 2
SECONDS, SHORT = 20, 5000

NUMBER = rb"([0-9]{1,10})"
TAG = rb"([0-9]{15})"
MEASURE = rb"(-?[0-9]{1,5}\.[0-9]{2})"
CODE = rb"(-|[0-9a-f]{32})"
PROFILE = b" ".join([MEASURE] * 4 + [CODE])
DAY = rb"(?: ([0-9]{1,5}))?"
HEADER = re.compile(NUMBER + b" " + NUMBER)
COMMANDS = [
    (b"A", re.compile(b"A " + TAG + b" " + PROFILE + DAY)),
    (b"R", re.compile(b"R " + TAG)),
    (b"W", re.compile(b"W " + NUMBER + b" " + PROFILE + DAY)),
    (b"N", re.compile(b"N " + NUMBER + b" " + PROFILE + DAY)),
]
# The day of a line that has none: an item's, and the first of a search.
USUAL_DAY = {"A": 1, "W": 0, "N": 0}


class Table(table_runs.Table):
    """Buckets with their slots, so that searches walk the trees and count what they visit. Every weight is 1."""

    def fresh(self, order, metric):
        self.space, self.items = Space(metric, ONES), {}
        return super().fresh(order, metric)

    def build(self, emptied, k, tags):
        distances = super().build(emptied, k, tags)
        self.buckets[k].slots = layout(self.space, [self.items[tag] for tag in tags])
        return distances

    def trees(self):
        for bucket in reversed(self.buckets):
            if bucket.built:
                yield bucket.slots, set(bucket.live)

    def within(self, query, radius, first_day):
        found, count = [], 0

        def visit(slots, live):
            nonlocal count
            if not slots:
                return
            (item, threshold), half = slots[0], 1 + len(slots) // 2
            d = distance(self.space, item, query)
            count += 1
            if item.tag in live and self.days[item.tag] >= first_day and d <= radius:
                found.append((d, item.tag))
            if d <= threshold + radius:
                visit(slots[1:half], live)
            if d + radius >= threshold:
                visit(slots[half:], live)

        for slots, live in self.trees():
            visit(slots, live)
        return sorted(found), count

    def closest(self, query, k, first_day):
        kept, count = [], 0

        def enters_left(d, threshold):
            return len(kept) < k or d <= threshold + kept[-1][0]

        def enters_right(d, threshold):
            return len(kept) < k or d + kept[-1][0] >= threshold

        def visit(slots, live):
            nonlocal count
            if not slots:
                return
            (item, threshold), half = slots[0], 1 + len(slots) // 2
            d = distance(self.space, item, query)
            count += 1
            if item.tag in live and self.days[item.tag] >= first_day:
                kept.append((d, item.tag))
                kept.sort()
                del kept[k:]
            halves = [(enters_left, slots[1:half]), (enters_right, slots[half:])]
            for enters, part in halves if d <= threshold else reversed(halves):
                if enters(d, threshold):
                    visit(part, live)

        for slots, live in self.trees():
            visit(slots, live)
        return kept, count


def measure_in(text):
    hundredths = int(text.replace(b"-", b"").replace(b".", b""))
    return -hundredths if text.startswith(b"-") else hundredths


def profile_in(fields):
    *measures, code = fields
    words = (0, 0) if code == b"-" else (int(code[:16], 16), int(code[16:], 16))
    return SimpleNamespace(measures=[measure_in(m) for m in measures], code=words, place=0)


def bad_tag(tag):
    country, national = divmod(tag, 10**12)
    return not (1 <= country <= 999 and national < 2**38)


def bad_measure(profile):
    return any(abs(m) > 10**6 for m in profile.measures)


def line_of(*words):
    return " ".join(map(str, words)).encode() + b"\n"


def accepted_or_refused(letter, refusal, *numbers):
    return line_of(letter, refusal) if refusal else line_of(letter, 0, *numbers)


def added(table, tag, profile, day):
    if bad_tag(tag):
        return line_of("A", 1)
    if bad_measure(profile):
        return line_of("A", 2)
    if table.home(tag) is None:
        table.items[tag] = SimpleNamespace(tag=tag, **vars(profile))
    refusal, bucket, distances = table.add(tag, day)
    return accepted_or_refused("A", refusal, bucket, distances)


def removed(table, tag):
    if bad_tag(tag):
        return line_of("R", 1)
    refusal, _, distances = table.remove(tag)
    return accepted_or_refused("R", refusal, distances)


def searched(letter, table, number, profile, first_day):
    if bad_measure(profile):
        return line_of(letter, 2)
    if letter == "N" and number == 0:
        return line_of(letter, 5)
    search = table.within if letter == "W" else table.closest
    found, count = search(profile, number, first_day)
    return line_of(letter, 0, len(found), count) + b"".join(line_of(f"{tag:015}", d) for d, tag in found)


def fits(letter, first, *profile_and_day):
    """Whether the numbers of a line are within their bits."""
    day = profile_and_day[-1] if profile_and_day else None
    return (letter in b"AR" or int(first) < 2**32) and int(day or 0) < 2**16


def command_in(line):
    for letter, form in COMMANDS:
        match = form.fullmatch(line)
        if match and fits(letter, *match.groups()):
            return letter.decode(), int(match[1]), match.groups()[1:]
    return None


def answer(table, number, line):
    command = command_in(line)
    if command is None:
        return line_of("?", number)
    letter, first, fields = command
    if letter == "R":
        return removed(table, first)
    *profile, day = fields
    day = USUAL_DAY[letter] if day is None else int(day)
    if letter == "A":
        return added(table, first, profile_in(profile), day)
    return searched(letter, table, first, profile_in(profile), day)


def refused_header(line):
    """What a header that ends the program prints, and None for an accepted one."""
    match = HEADER.fullmatch(line)
    if not match or max(map(int, match.groups())) >= 2**32:
        return line_of("?", 1)
    order, metric = map(int, match.groups())
    if order > MOST_ORDER:
        return line_of("F", 3)
    if metric > LAST_METRIC:
        return line_of("F", 4)
    return None


def lines_in(data):
    lines = data.split(b"\n")
    return lines if lines[-1] or len(lines) == 1 else lines[:-1]


def replies(data):
    """The reply to each line, up to the end of the program."""
    header, *lines = lines_in(data)
    refusal = refused_header(header)
    if refusal:
        return [refusal]
    table = Table()
    table.fresh(*map(int, header.split(b" ")))
    return [b""] + [answer(table, number, line) for number, line in enumerate(lines, 2)]


# What the program is given.

FLAT = "0.00 0.00 0.00 0.00 -"


def tag_of(national, country=36):
    return f"{country:03}{national:012}"


def at(first, code="-"):
    """A profile with this first measure, in hundredths."""
    return f"{'-' if first < 0 else ''}{abs(first) // 100}.{abs(first) % 100:02} 0.00 0.00 0.00 {code}"


def conversation(*lines):
    return "".join(line + "\n" for line in lines).encode("latin-1")


def add(national, first):
    return f"A {tag_of(national)} {at(first)}"


REFUSALS = conversation(
    "1 0",
    f"R {tag_of(1)}",
    add(1, 10),
    add(1, 11),
    f"A {tag_of(1, country=0)} {FLAT}",
    f"A {tag_of(1, country=0)} 10000.01 0.00 0.00 0.00 -",
    f"A {tag_of(1)} 10000.01 0.00 0.00 0.00 -",
    f"A {tag_of(2)} 0.00 -10000.01 0.00 0.00 -",
    f"A {tag_of(2)} 0.00 0.00 99999.99 0.00 -",
    f"A {tag_of(2)} 10000.00 -10000.00 10000.00 -10000.00 -",
    add(3, 5),
    add(2, 5),
    f"A {tag_of(3)} 0.00 0.00 0.00 -10000.01 -",
    f"R {tag_of(3)}",
    f"R {tag_of(3, country=0)}",
    "R 000000000000000",
    f"W 0 0.00 0.00 0.00 10000.01 -",
    f"N 1 -10000.01 0.00 0.00 0.00 -",
    f"N 0 -10000.01 0.00 0.00 0.00 -",
    f"N 0 {FLAT}",
    f"N 1 {FLAT}",
    f"W 4294967295 {FLAT}",
    f"R {tag_of(1)}",
    f"R {tag_of(1)}",
    f"R {tag_of(2)}",
    f"N 3 {FLAT}",
    f"W 4294967295 {FLAT}",
)

NATIONALS = conversation(
    "3 0",
    *(
        f"{letter} {tag_of(274_877_906_943 + more, country)}{rest}"
        for country in (1, 36, 999)
        for more in (0, 1)
        for letter, rest in (("A", f" {FLAT}"), ("R", ""))
    ),
    f"A {tag_of(274_877_906_943)} {FLAT}",
    f"A {tag_of(999_999_999_999)} {FLAT}",
    f"N 2 {FLAT}",
)

GOOD = f"A {tag_of(7)} {FLAT}"
MALFORMED = conversation(
    "2 0",
    "",
    GOOD + "\r",
    GOOD.replace(" ", "\t", 1),
    GOOD.replace(" ", "  ", 1),
    GOOD + " ",
    " " + GOOD,
    f"A {tag_of(7)}0 {FLAT}",
    f"A {tag_of(7)[1:]} {FLAT}",
    f"R {tag_of(7)}1",
    f"R {tag_of(7)[:14]}",
    f"R {tag_of(7)} ",
    f"R {tag_of(7)} {FLAT}",
    "R",
    "A",
    "W",
    "?",
    "F 3",
    "2 0",
    "a" + GOOD[1:],
    "AA" + GOOD[1:],
    f"A{GOOD[2:]}",
    f"A {tag_of(7)} 0.00 0.00 0.00 0.00 {'0' * 31}A",
    f"A {tag_of(7)} 0.00 0.00 0.00 0.00 {'0' * 31}",
    f"A {tag_of(7)} 0.00 0.00 0.00 0.00 {'0' * 33}",
    f"A {tag_of(7)} 0.00 0.00 0.00 0.00 {'0' * 31}g",
    f"A {tag_of(7)} 0.00 0.00 0.00 0.00 --",
    f"A {tag_of(7)} 0.00 0.00 0.00 0.00 ",
    f"A {tag_of(7)} 0.00 0.00 0.00 0.00",
    f"A {tag_of(7)} 0.00 0.00 0.00 -",
    f"A {tag_of(7)} 0.00 0.00 0.00 0.00 0.00 -",
    *(
        f"A {tag_of(7)} {measure} 0.00 0.00 0.00 -"
        for measure in ("+0.05", "-.5", "-.50", ".50", "0.5", "0.050", "0.", "5", "0,50", "--0.05", "- 0.05", "000000.00", "0.0.0", "0..00", "", "-", "1e0.00", "0.-5")
    ),
    "A +36000000000007 " + FLAT,
    "A 03600000000000x " + FLAT,
    f"W +1 {FLAT}",
    f"W -1 {FLAT}",
    f"W  {FLAT}",
    f"W 4294967296 {FLAT}",
    f"W 9999999999 {FLAT}",
    f"W 00000000001 {FLAT}",
    f"N 4294967296 {FLAT}",
    f"N 0x1 {FLAT}",
    f"N 1 {FLAT} 1 1",
    f"M 1 {FLAT}",
    f"W {tag_of(7)} {FLAT}",
    f"A 4294967295 {FLAT}",
    f"N 1 {FLAT}",
    GOOD,
    f"N 1 {FLAT}",
)

NUMBERS = conversation(
    "0000000002 0000000000",
    f"A {tag_of(1)} -0.05 00000.00 -0.00 -00001.50 -",
    f"A {tag_of(2)} 0.05 0.00 0.00 0.00 {'0123456789abcdef' * 2}",
    f"A {tag_of(3)} 01234.56 -00000.07 10000.00 -10000.00 {'f' * 32}",
    f"A {tag_of(0, country=999)} -00000.05 0.00 0.00 -1.50 -",
    f"W 0 -0.05 0.00 0.00 -1.50 -",
    f"W 10 0.05 0.00 0.00 0.00 -",
    f"W 0000000160 {FLAT}",
    f"W 159 {FLAT}",
    f"W 154 {FLAT}",
    f"W 4294967295 {FLAT}",
    f"N 4294967295 {FLAT}",
    f"N 0000000001 {FLAT}",
)

CODES = conversation(
    "3 1",
    f"A {tag_of(1)} 0.00 0.00 0.00 0.00 {'0' * 31}1",
    f"A {tag_of(2)} 9.00 0.00 0.00 0.00 {'8' + '0' * 31}",
    f"A {tag_of(3)} 0.00 0.00 0.00 0.00 {'0' * 15}10000000000000000",
    f"A {tag_of(4)} 0.00 0.00 0.00 0.00 {'f' * 32}",
    f"A {tag_of(5)} 0.00 0.00 0.00 0.00 -",
    f"W 1 {FLAT}",
    f"W 0 -99.00 0.00 0.00 0.00 {'8' + '0' * 31}",
    f"N 2 0.00 0.00 0.00 0.00 {'f' * 31 + 'e'}",
    f"W 128 {FLAT}",
    f"N 9 0.00 0.00 0.00 0.00 {'0123456789abcdef' * 2}",
)

TIES = conversation(
    "3 0",
    *(add(n, v) for n, v in ((5, 10), (3, -10), (8, 10), (1, -10), (7, 0), (2, 20))),
    f"N 1 {FLAT}",
    f"N 2 {FLAT}",
    f"N 3 {FLAT}",
    f"N 4 {FLAT}",
    f"W 10 {FLAT}",
    f"W 9 {FLAT}",
    f"R {tag_of(1)}",
    f"N 2 {FLAT}",
    f"N 2 {at(15)}",
    f"W 5 {at(15)}",
)


FIRST_DAYS = ("", " 0", " 1", " 2", " 299", " 300", " 00301", " 302", " 65535")
DAYS = conversation(
    "3 0",
    add(1, 10),
    add(2, 20) + " 300",
    add(3, 30) + " 301",
    add(4, 40) + " 65535",
    add(5, 50) + " 00001",
    add(6, 60) + " 0",
    add(1, 10) + " 0",
    f"A {tag_of(1, country=0)} {at(10)} 0",
    f"A {tag_of(6)} 10000.01 0.00 0.00 0.00 - 0",
    add(1, 10) + " 65535",
    *(f"{letter} {number} {FLAT}{day}" for day in FIRST_DAYS for letter, number in (("W", 35), ("W", 4294967295), ("N", 1), ("N", 3), ("N", 9))),
    f"N 0 {FLAT} 0",
    f"N 1 10000.01 0.00 0.00 0.00 - 0",
    f"W 1 0.00 0.00 0.00 -10000.01 - 65535",
    *(add(n, 10 * n) + f" {300 + n}" for n in (6, 7, 8)),
    add(9, 90) + " 0",
    add(9, 90) + " 1",
    f"R {tag_of(3)}",
    f"N 8 {FLAT} 301",
    add(3, 30),
    f"N 8 {FLAT} 301",
    f"N 8 {FLAT} 1",
    *(f"R {tag_of(n)}" for n in (1, 2, 4, 5, 6)),
    f"W 4294967295 {FLAT} 1",
    f"W 4294967295 {FLAT} 307",
    f"N 2 {at(80)} 308",
)

NO_DAYS = (" 65536", " 99999", " 000001", " 065535", " 100000", " ", "  1", " 1 ", " 1 1", "\t1", " -1", " -0", " +1", " 1.00", " 1,0", " 0x1", " a", " -", " 1\r")
DAYS_MALFORMED = conversation(
    "2 0",
    GOOD + " 7",
    *(f"{line}{day}" for day in NO_DAYS for line in (GOOD.replace("7", "8"), f"W 9 {FLAT}", f"N 9 {FLAT}")),
    *(f"R {tag_of(7)} {day}" for day in (0, 1, 7, 65535, 65536)),
    *(f"{front} 7 {FLAT}" for front in (f"A {tag_of(8)}", "W 9", "N 9")),
    *(f"{front} 0.00 0.00 0.00 0.00 7" for front in (f"A {tag_of(8)}", "W 9", "N 9")),
    *(f"{front} 0.00 0.00 0.00 0.00 7 -" for front in (f"A {tag_of(8)}", "W 9", "N 9")),
    f"N 9 {FLAT} 7",
    f"N 9 {FLAT} 8",
)


def full():
    lines = ["2 0"] + [add(n, v) for n, v in ((1, 10), (2, 13), (3, 13), (4, 20))]
    lines += [add(5, 1), add(4, 1), f"W 0 {at(13)}", f"W 5 {at(30)}", f"N 1 {at(13)}", f"N 1 {at(30)}"]
    lines += [f"R {tag_of(4)}", add(5, 11), add(6, 1), f"R {tag_of(3)}", f"R {tag_of(2)}", f"W 4294967295 {FLAT}"]
    return conversation(*lines, add(7, 7), add(8, 8), add(9, 9), f"N 4 {FLAT}")


def smallest():
    return conversation("0 1", f"N 1 {FLAT}", add(1, 0), add(2, 0), f"W 0 {FLAT}", f"R {tag_of(1)}", f"R {tag_of(1)}", add(2, 0), f"N 1 {FLAT}")


class Draws:
    """Numbers that look drawn, the same on every machine."""

    def __init__(self, seed):
        self.state = seed

    def below(self, n):
        self.state = (self.state * 6364136223846793005 + 1442695040888963407) % 2**64
        return (self.state >> 33) % n


def drawn_profile(draws):
    measures = [draws.below(2001) - 1000 for _ in range(4)]
    digits = "".join("0123456789abcdef"[draws.below(16)] for _ in range(32))
    texts = [f"{'-' if m < 0 else ''}{abs(m) // 100}.{abs(m) % 100:02}" for m in measures]
    return " ".join(texts + [digits if draws.below(5) else "-"])


def at_order_8(metric, seed, count, days=0):
    """Adds, removals and searches of items that fill a table of order 8; with days below this number, where it is not 0, on most of the lines."""
    draws, lines = Draws(seed), [f"8 {metric}"]

    def profile():
        text = drawn_profile(draws)
        return f"{text} {draws.below(days)}" if days and draws.below(4) else text

    for i in range(count):
        kind = draws.below(20)
        tag = tag_of(draws.below(320))
        if i % 300 > 280 or kind < 3:
            lines.append(f"R {tag}")
        elif kind < 18:
            lines.append(f"A {tag} {profile()}")
        elif kind == 18:
            lines.append(f"N {1 + draws.below(6)} {profile()}")
        else:
            lines.append(f"W {draws.below((1500, 60, 800)[metric])} {profile()}")
    lines += [f"A {tag_of(n)} {profile()}" for n in range(1000, 1300)]
    return conversation(*lines, f"W 4294967295 {FLAT}", f"N 300 {FLAT}")


LONGEST = f"A {tag_of(9)} -10000.00 -10000.00 -10000.00 -10000.00 {'a' * 32} 65535"
assert len(LONGEST) == 96


def long_lines():
    """The longest command, and lines past it up to past any area; one of them begins as a command does."""
    lines = ["1 0", LONGEST, LONGEST + " ", LONGEST + "0"]
    lines += ["A" * n for n in (127, 128, 129, 130, 4095, 4096, 4097)]
    lines += [f"R {tag_of(9)}" + " " * 200, f"R {tag_of(9)}" + "9" * 100_000, f"N 1 {FLAT}", "x" * 300, f"R {tag_of(9)}"]
    return conversation(*lines)


def strange_bytes():
    """NUL, and bytes above 127, in the middle and at the ends of lines; a carriage return alone."""
    line = f"R {tag_of(7)}"
    strange = ["\0", "\x7f", "\x80", "\xa0", "\xb2", "\xff", "\v", "\f", "\r"]
    lines = ["1 0", GOOD] + [line + s for s in strange] + [s + line for s in strange] + [line.replace(" ", s) for s in strange]
    return conversation(*lines, *strange, line[:-1] + "\xb2", line)


HEADERS = {
    "order_before_metric": "9 7",
    "order": "4294967295 0",
    "metric": "8 3",
    "metric_largest": "0 4294967295",
    "past_32_bits": "4294967296 0",
    "metric_past_32_bits": "0 4294967296",
    "eleven_digits": "00000000002 0",
    "one_field": "2",
    "three_fields": "2 0 0",
    "two_spaces": "2  0",
    "trailing_space": "2 0 ",
    "leading_space": " 2 0",
    "carriage_return": "2 0\r",
    "tab": "2\t0",
    "minus": "2 -0",
    "command": GOOD,
    "no_line": "",
    "long": "2 0" + " " * 200,
}


def runs():
    yield "refusals", REFUSALS
    yield "nationals", NATIONALS
    yield "malformed", MALFORMED
    yield "numbers", NUMBERS
    yield "codes", CODES
    yield "ties", TIES
    yield "days", DAYS
    yield "days_malformed", DAYS_MALFORMED
    yield "full", full()
    yield "smallest", smallest()
    yield "order_8_by_measures", at_order_8(0, 1, 900)
    yield "order_8_by_codes", at_order_8(1, 2, 900)
    yield "order_8_by_largest", at_order_8(2, 3, 900)
    yield "order_8_by_days", at_order_8(0, 4, 900, days=40)
    yield "long_lines", long_lines()
    yield "strange_bytes", strange_bytes()
    yield "empty", b""
    yield "header_alone", b"8 1"
    yield "header_alone_refused", b"9 1"
    yield "no_last_feed", conversation("1 0", GOOD) + f"N 1 {FLAT}".encode()
    yield "no_last_feed_malformed", conversation("1 0", GOOD, "") + b" "
    yield "no_last_feed_long", conversation("1 0", GOOD) + b"x" * 129
    for name, line in HEADERS.items():
        yield f"header_{name}", conversation(line, GOOD, "")


# What the program does.


def differs(name, expected, written):
    if expected != written:
        sys.exit(f"yard runs: {name} failed: expected {expected[:400]!r}, printed {written[:400]!r}")


def run_whole(program, name, data, expected):
    done = subprocess.run([program], input=data, stdout=subprocess.PIPE, timeout=SECONDS, check=True)
    differs(name, expected, done.stdout)


def read_some(pipe, length):
    """So many bytes, or fewer where no more come in time."""
    got = b""
    while len(got) < length and select.select([pipe], [], [], SECONDS)[0]:
        more = os.read(pipe.fileno(), length - len(got))
        if not more:
            break
        got += more
    return got


def await_end(process, name):
    try:
        process.wait(SECONDS)
    except subprocess.TimeoutExpired:
        process.kill()
        sys.exit(f"yard runs: {name} failed: the program does not end")


def run_in_turn(program, name, data):
    """A line goes byte by byte, and the next one when its reply is there. The input is closed after the last line, and after a refused header not
    before the program has ended."""
    lines = data.split(b"\n")[:-1]
    with subprocess.Popen([program], stdin=subprocess.PIPE, stdout=subprocess.PIPE, bufsize=0) as process:
        for line, reply in zip(lines, replies(data)):
            for b in line + b"\n":
                process.stdin.write(bytes([b]))
            differs(f"{name} in turn", reply, read_some(process.stdout, len(reply)))
        if refused_header(lines[0]):
            await_end(process, f"{name} in turn")
        process.stdin.close()
        differs(f"{name} in turn", b"", read_some(process.stdout, 1))
        await_end(process, f"{name} in turn")


def run_to_full(program):
    """After a write that fails the program ends, while its input is still open."""
    with open("/dev/full", "wb") as full:
        with subprocess.Popen([program], stdin=subprocess.PIPE, stdout=full, bufsize=0) as process:
            process.stdin.write(conversation("1 0", GOOD))
            await_end(process, "a full output")


def run(program):
    stored = sorted(STORED.glob("*.in"))
    for path in stored:
        data, expected = path.read_bytes(), path.with_suffix(".out").read_bytes()
        run_whole(program, path.stem, data, expected)
        if len(data) < SHORT and data.endswith(b"\n"):
            run_in_turn(program, path.stem, data)
    run_in_turn(program, "example", (EXAMPLE / "stdin").read_bytes())
    run_to_full(program)
    print(f"yard runs: {len(stored)} passed")


def files():
    for name, data in runs():
        yield STORED / f"{name}.in", data
        yield STORED / f"{name}.out", b"".join(replies(data))
    yield EXAMPLE / "stdout", b"".join(replies((EXAMPLE / "stdin").read_bytes()))


def shown_exchange():
    """The lines that examples/README.md marks as typed, and the whole exchange as it shows it."""
    shown = re.search(rb"```text\n(> .*?)```", (ROOT / "examples/README.md").read_bytes(), re.S)[1]
    return re.findall(rb"^> (.*)$", shown, re.M), shown


def main():
    if "--run" in sys.argv[1:]:
        return run(sys.argv[-1])
    expected = dict(files())
    if "--check" not in sys.argv[1:]:
        for path, data in expected.items():
            path.parent.mkdir(parents=True, exist_ok=True)
            path.write_bytes(data)
        return
    typed, shown = shown_exchange()
    if shown != b"".join(b"> " + line + b"\n" + reply for line, reply in zip(typed, replies(b"\n".join(typed)))):
        sys.exit("examples/README.md shows another exchange than the script works out")
    if set(STORED.iterdir()) != {p for p in expected if p.parent == STORED}:
        sys.exit(f"{STORED.name} has other files than the script writes")
    for path, data in expected.items():
        if path.read_bytes() != data:
            sys.exit(f"{path.name} is not what the script writes")


if __name__ == "__main__":
    main()
