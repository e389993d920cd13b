#!/usr/bin/env python3
"""What load replies to a damaged image, worked out apart from the code by docs/RULES.md (12).

Writes crates/image_runs/src/bytes.rt (a sound image of each form, with one byte behind it) and crates/image_runs/stdout (what the program must print).
With --check it writes nothing and fails where a file differs from what it would write.

Every bucket of the images is in use, two of them with dead slots. Nationals, measures and codes are such that one bit makes tags alike within a bucket
and across buckets, that items lie equally far from the first of bucket 2, that measures stand at both limits, and that the trees are the same by
every metric and by the weights of every form: the bits are flipped in the image of form 2 by each metric and in those of forms 1 and 0. One bit makes a weight
101, one measure has weight 0, and one bit makes the day of a live slot 0, or of a dead one.
"""
import struct
import sys
from collections import namedtuple
from pathlib import Path

from layout import constant

CRATE = Path(__file__).resolve().parent.parent / "crates" / "image_runs"
COUNTRY = 36 * 10**12
ORDER, ROWS = 2, 11
LIVE, DEAD = 0, 1
MOST_WEIGHT, MOST_DISTANCE = 100, 2**32 - 1

# Of each form where the sizes begin, since form 0 has no weights, and how a record is laid out, which has a day in form 2 alone.
Form = namedtuple("Form", "front record")
FORMS = [Form(4, "<4i2Q2I"), Form(8, "<4i2Q2I"), Form(8, "<4i2Q2IH")]
LAST_FORM = len(FORMS) - 1

# What a distance depends on, and the weights that leave every measure as it is.
Space = namedtuple("Space", "metric weights")
ONES = (1, 1, 1, 1)

# Of the images of forms 1 and 2; in the measures of the second and third no two items of a bucket differ.
WEIGHTS = (1, 100, 0, 1)

# Of each bucket its slots: national, measures, code, threshold, mark, day.
BUCKETS = [
    [(8, (10**6, -(10**6), 0, 0), (0, 0), 0, LIVE, 1)],
    [(9, (-5, 0, 0, 7), (0, 0), 2, LIVE, 300), (26, (-3, 0, 0, 7), (1, 1 << 63), 0, DEAD, 1 << 8)],
    [
        (10, (10, 0, -9, 0), (0, 0), 3, DEAD, 1),
        (11, (13, 0, -9, 0), (7, 0), 6, LIVE, 2**16 - 1),
        (24, (7, 0, -9, 0), (1 << 63, 3), 0, LIVE, 1 << 15),
        (40, (10, 0, -9, -3), (0, 28), 0, DEAD, 2),
    ],
]


def image_of(form, metric):
    """The bytes: order, metric, form, from form 1 on the weights, sizes, tags, records, each as far as the form has it."""
    slots = [s for b in BUCKETS for s in b]
    start = bytes([ORDER, metric, form, 0, *WEIGHTS])[: FORMS[form].front]
    sizes = [struct.pack("<HH", len(b), sum(s[4] == LIVE for s in b)) for b in BUCKETS]
    tags = [struct.pack("<Q", COUNTRY + s[0]) for s in slots]
    records = [struct.pack(FORMS[LAST_FORM].record, *s[1], *s[2], *s[3:])[: struct.calcsize(FORMS[form].record)] for s in slots]
    return b"".join([start, *sizes, *tags, *records])


class Slot:
    def __init__(self, form, place, tag, record):
        fields = (*struct.unpack(form.record, record), 1)  # the day where the form has none
        *self.measures, word, other, self.threshold, self.mark, self.day = fields[:9]
        self.place, self.tag, self.code = place, tag, (word, other)

    def is_valid(self):
        country, national = divmod(self.tag, 10**12)
        is_tag = 1 <= country <= 999 and national < 2**38
        return is_tag and all(abs(m) <= 10**6 for m in self.measures) and self.mark in (LIVE, DEAD)


def distance(space, a, b):
    if space.metric == 1:
        return sum(bin(x ^ y).count("1") for x, y in zip(a.code, b.code))
    weighted = [min(w * abs(x - y), MOST_DISTANCE) for w, x, y in zip(space.weights, a.measures, b.measures)]
    return min(sum(weighted), MOST_DISTANCE) if space.metric == 0 else max(weighted)


def layout(space, slots):
    """The slots in the tree's order, each with its threshold."""
    if not slots:
        return []
    first = min(slots, key=lambda s: (s.tag, s.place))
    rest = sorted((s for s in slots if s is not first), key=lambda s: (distance(space, first, s), s.tag, s.place))
    left, right = rest[: len(slots) // 2], rest[len(slots) // 2 :]
    threshold = distance(space, first, left[-1]) if left else 0
    return [(first, threshold)] + layout(space, left) + layout(space, right)


def fields_stand(live, slots):
    return all(s.is_valid() for s in slots) and sum(s.mark == LIVE for s in slots) == live


def item(slot):
    return slot.tag, slot.measures, slot.code, slot.day


def slot_refusal(before, bucket, found, laid, threshold):
    """Of one slot, with all before it and those of its own bucket, beside what the layout puts there."""
    earlier = [s for s in bucket if s.place < found.place]
    live = [s for s in before + earlier if s.mark == LIVE and found.mark == LIVE]
    if found.tag in [s.tag for s in earlier + live]:
        return 36
    if item(found) != item(laid):
        return 37
    return 0 if found.threshold == threshold else 38


def trees_refusal(space, buckets):
    """The lowest slot that is refused, and by what; 0 and 0 where none is."""
    before = []
    for bucket in buckets:
        for found, (laid, threshold) in zip(bucket, layout(space, bucket)):
            refusal = slot_refusal(before, bucket, found, laid, threshold)
            if refusal:
                return refusal, found.place
        before = before + bucket
    return 0, 0


def size_stands(k, built, live):
    return built == live == 0 or (live <= built <= 2**k and 2 * built > 2**k and 4 * live > 2**k)


def sizes_stand(order, sizes):
    return all(size_stands(k, *pair) for k, pair in enumerate(sizes)) and sum(live for _, live in sizes) <= 2**order


def slots_of(form, count, body):
    """Tags first, then records."""
    tags, width = struct.iter_unpack("<Q", body[: 8 * count]), struct.calcsize(form.record)
    records = (body[at : at + width] for at in range(8 * count, len(body), width))
    return [Slot(form, place, tag, record) for place, ((tag,), record) in enumerate(zip(tags, records))]


def buckets_of(sizes, slots):
    """Slots by bucket from 0 up."""
    at = 0
    for built, _ in sizes:
        yield slots[at : at + built]
        at += built


def fields_refusal(rows, image):
    """The refusal before the trees are looked at of an image that is loaded into a table of so many rows, with its space and buckets where there is none."""
    if len(image) < 4:
        return 7
    order, metric = image[0], image[1]
    if order > 12:
        return 3
    if metric > 2:
        return 4
    number = int.from_bytes(image[2:4], "little")
    if number > LAST_FORM:
        return 8
    form = FORMS[number]
    if len(image) < form.front:
        return 7
    weights = tuple(image[4 : form.front]) or ONES
    if max(weights) > MOST_WEIGHT:
        return 32
    end = form.front + 4 * (order + 1)
    if len(image) < end:
        return 7
    sizes = list(struct.iter_unpack("<HH", image[form.front : end]))
    if not sizes_stand(order, sizes):
        return 24
    count = sum(built for built, _ in sizes)
    if len(image) != end + (8 + struct.calcsize(form.record)) * count:
        return 7
    if rows < order + 1 + 2 ** (order + 1):
        return 23
    slots = slots_of(form, count, image[end:])
    if not all(s.day for s in slots):
        return 33
    buckets = list(buckets_of(sizes, slots))
    if not all(fields_stand(live, slots) for (_, live), slots in zip(sizes, buckets)):
        return 8
    return Space(metric, weights), buckets


def load(rows, image):
    """The refusal of an image that is loaded into a table of so many rows, 0 where it is accepted, and the slot that it is of, 0 where it is of none."""
    before = fields_refusal(rows, image)
    return (before, 0) if isinstance(before, int) else trees_refusal(*before)


def reply(rows, image):
    """Refusal and slot; and of an accepted image that its bytes come back, since a table has one image of form 2 only, or those of its translation to form 2."""
    refusal, slot = load(rows, image)
    told = f" {refusal}:{slot}" if slot else f" {refusal}"
    return told if refusal else " 0=" if image[2] == LAST_FORM else " 0+"


def flipped(image, at, bit):
    return image[:at] + bytes([image[at] ^ 1 << bit]) + image[at + 1 :]


def cut_lines(image):
    longer = image + bytes(1)
    return [f"{n}" + reply(ROWS - 1, longer[:n]) + reply(ROWS, longer[:n]) for n in range(len(longer) + 1)]


def flip_lines(image):
    return [f"{at}" + "".join(reply(ROWS, flipped(image, at, bit)) for bit in range(8)) for at in range(len(image))]


def output():
    newest = [image_of(LAST_FORM, metric) for metric in (0, 1, 2)]
    lines = cut_lines(newest[0]) + [line for image in newest for line in flip_lines(image)]
    for form in reversed(range(LAST_FORM)):
        lines += cut_lines(image_of(form, 0)) + flip_lines(image_of(form, 0))
    return "\n".join(lines) + "\n"


def constants(form):
    """The image with a byte behind it."""
    return [f"// Of form {form}.", *constant(f"FORM_{form}", "u8", image_of(form, 0) + bytes(1))]


def source():
    lines = [
        "// A sound image of each form, all of the same slots, and behind it one byte that is no part of it, as",
        "// tools/image_runs.py writes them.",
        "",
        "// The bytes of the image of the form that is written.",
        f"pub const LENGTH: usize = {len(image_of(LAST_FORM, 0))};",
        "",
    ]
    return "\n".join(lines + [line for form in reversed(range(len(FORMS))) for line in constants(form)])


def main():
    files = {CRATE / "src" / "bytes.rt": source(), CRATE / "stdout": output()}
    for path, text in files.items():
        if "--check" not in sys.argv[1:]:
            path.parent.mkdir(parents=True, exist_ok=True)
            path.write_text(text)
        elif path.read_text() != text:
            sys.exit(f"{path.name} is not what the script writes")


if __name__ == "__main__":
    main()
