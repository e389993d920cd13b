"""The page of `herd page` in a real browser. Every number on it is held to what the program prints of the same image, and
a day's work in it to the same commands at the terminal, byte for byte.

usage: page.py PROGRAM [--times] [--picture FILE.png]
--times writes how long things take with 4,096 head; --picture makes the picture for the document.
"""
import json
import os
import random
import subprocess
import sys
import tempfile
import time
from pathlib import Path

sys.dont_write_bytecode = True
sys.path.insert(0, str(Path(__file__).parent))
from browser import Browser, Page, find

PROGRAM = os.path.abspath(sys.argv[1])
EXAMPLES = Path(__file__).resolve().parents[3] / "examples"
MEASURES = ("kg", "hip", "girth", "gain")
NO_CODE, FULL_RADIUS = "-", 4294967295
failed = []
held = cells = 0


def hold(what, shown, expected):
    global held, cells
    if shown == expected:
        held += 1
        cells += sum(len(row) if isinstance(row, list) else 1 for row in shown) if isinstance(shown, list) else 1
        return
    if isinstance(shown, list) and isinstance(expected, list):
        at = next((i for i, (a, b) in enumerate(zip(shown, expected)) if a != b), min(len(shown), len(expected)))
        shown, expected = (len(shown), at, shown[at:at + 2]), (len(expected), at, expected[at:at + 2])
    failed.append(what)
    print(f"NOT HELD  {what}\n  shown     {shown!r}\n  expected  {expected!r}", flush=True)


# The program, and what it prints


def herd(*words, given=None, status=0):
    done = subprocess.run([PROGRAM, *map(str, words)], capture_output=True, text=True, input=given)
    assert done.returncode == status, (words, done.stdout, done.stderr)
    return done.stdout


def answer(command, image, *words, given=None):
    return json.loads(herd(command, "--json", image, *words, given=given))


def grouped(number):
    return f"{number:,.2f}" if isinstance(number, float) else f"{number:,}"


def hundredths(number):
    return round(number * 100)


class Native:
    """An image as the program tells of it."""

    def __init__(self, image):
        self.image, self.name = image, image.name
        self.show = answer("show", image)
        self.head = {head["tag"]: head for head in answer("list", image)}
        self.has_codes = any(head["code"] != NO_CODE for head in self.head.values())
        paying = [tag for tag, head in self.head.items() if head["kg"] >= 0]
        each = answer("dues", image, "-", given="\n".join(paying))["each"]
        self.dues = {pays["tag"]: hundredths(pays["dues"]) for pays in each}

    def due(self, tags):
        if any(tag not in self.dues for tag in tags):
            return "below 0 kg"
        return grouped(sum(self.dues[tag] for tag in tags) / 100)

    def lots(self, radius):
        reply = answer("lots", self.image, radius, "--list", 1)
        return reply["by_radius"][0], reply["listed"]["lots"]

    def lot_rows(self, lots):
        for lot, tags in enumerate(lots, 1):
            kilos = [hundredths(self.head[tag]["kg"]) for tag in tags]
            mean = (2 * sum(kilos) + len(kilos)) // (2 * len(kilos))
            weights = [f"{value / 100:.2f}" for value in (min(kilos), mean, max(kilos))]
            yield [grouped(lot), grouped(len(tags)), *weights, self.due(tags), tags[0]]

    def fields(self, head):
        return [str(head["day"]), *(f"{head[name]:.2f}" for name in MEASURES)]

    def code(self, head):
        return [head["code"]] if self.has_codes else []


# The page


# All rows of a long table, as they are drawn while it is scrolled from end to end, in a higher frame where they are many.
ROWS = """(box => {
  const table = { "lot-rows": lotTable, "head-rows": headTable, "found-rows": foundTable }[box.id], rows = new Map();
  if (table.rows.length > 1000) box.style.height = "5000px";
  box.scrollTop = 0; table.draw();
  for (let top = -1; box.scrollTop > top; box.scrollTop += box.clientHeight - 80, table.draw()) {
    top = box.scrollTop;
    const frame = box.getBoundingClientRect();
    box.querySelectorAll("tbody tr:not(.gap)").forEach(row => {
      const seen = row.getBoundingClientRect();
      if (seen.bottom > frame.top && seen.top < frame.bottom)
        rows.set(Number(row.getAttribute("aria-rowindex")), [...row.cells].map(cell => cell.innerText.trim()));
    });
  }
  box.style.height = "";
  return [...rows.keys()].sort((a, b) => a - b).map(key => rows.get(key));
})(document.getElementById("%s"))"""


def rows(page, box):
    return page.see(ROWS % box)


def wait(page, condition, seconds=20):
    end = time.monotonic() + seconds
    while not page.see(f"Boolean({condition})"):
        assert time.monotonic() < end, condition
        time.sleep(.02)


def drafted(page, radius):
    """Until the lots by this radius are shown."""
    wait(page, f"(at('slide').getAttribute('aria-valuetext') ?? '').startsWith('radius {radius:,}:')")


def give(page, *files):
    root = page.call("DOM.getDocument")["root"]["nodeId"]
    node = page.call("DOM.querySelector", nodeId=root, selector="#file")["nodeId"]
    page.call("DOM.setFileInputFiles", nodeId=node, files=[str(file) for file in files])


def told_after(page, act):
    """What the page says of an act."""
    page.see("tell('')")
    act()
    wait(page, "at('told').textContent")
    return page.text("#told")


def blamed(page):
    """The fields that are blamed, and in which words."""
    return page.see("[...document.querySelectorAll('[aria-invalid]')].map(field => "
                    "[field.id, document.getElementById(field.getAttribute('aria-describedby')).innerText])")


# What is shown of an image


def hold_image(page, native, radii):
    rng, name = random.Random(1), native.name
    lot_of = {}
    for radius in radii:
        page.type("#radius", str(radius))
        drafted(page, radius)
        total, lots = native.lots(radius)
        lot_of = {tag: lot for lot, tags in enumerate(lots, 1) for tag in tags}
        words = "lot" if total["lots"] == 1 else "lots"
        hold(f"{name}, radius {radius}: the number of lots and the largest", page.text("#drafted"),
             f"{total['lots']:,} {words}, the largest of {total['largest']:,} head")
        hold(f"{name}, radius {radius}: the lots", rows(page, "lot-rows"), list(native.lot_rows(lots)))
    hold_curve(page, native)
    all_rows = [[tag, *native.fields(head), grouped(lot_of[tag]), native.due([tag]), *native.code(head)]
                for tag, head in native.head.items()]
    hold(f"{name}: all head", rows(page, "head-rows"), all_rows)
    for column, key in ((2, float), (0, str)):
        page.click("#head-rows th button", column)
        ordered = sorted((row[column] for row in all_rows), key=key)
        hold(f"{name}: all head by column {column}", [row[column] for row in rows(page, "head-rows")], ordered)
    digits = next(iter(native.head))[-4:]
    page.type("#filter", digits)
    hold(f"{name}: head with {digits}", rows(page, "head-rows"), [row for row in all_rows if digits in row[0]])
    page.type("#filter", "")
    hold_searches(page, native, lot_of, rng, max(radius for radius in radii if radius < FULL_RADIUS))
    hold_summary(page, native)


def hold_curve(page, native):
    page.see("plot.show = (herd, byRadius) => { window.plotted = byRadius; "
             "Plot.prototype.show.call(plot, herd, byRadius); }; window.plotted = null; drawPlot()")
    wait(page, "window.plotted")
    plotted = page.see("plotted")
    by_radius = answer("lots", native.image, *[by["radius"] for by in plotted])["by_radius"]
    hold(f"{native.name}: the curve", plotted, by_radius)
    hold(f"{native.name}: the curve ends in one lot", plotted[-1]["lots"], 1)


def hold_searches(page, native, lot_of, rng, farthest):
    tags = list(native.head)
    for turn in range(12):
        head = native.head[rng.choice(tags)]
        since = rng.choice([None, None, head["day"], 1, 65535])
        page.type("#like-tag", head["tag"])
        query = [head["tag"]]
        if turn % 2:
            profile = [f"{head[name] + rng.randrange(-900, 900) / 100:.2f}" for name in MEASURES]
            for name, value in zip(MEASURES, profile):
                page.type(f"#like-{name}", value.replace(".", rng.choice(".,")))
            query = [*profile, head["code"]]
        page.type("#since", str(since or ""))
        count = rng.choice([1, 2, 10, 100, len(tags), len(tags) + 5])
        radius = rng.randrange(max(2, farthest // 6))
        for kind, bound, field in (("nearest", count, "count"), ("range", radius, "within")):
            page.click(f"#by-{'count' if kind == 'nearest' else 'radius'}")
            page.type(f"#{field}", str(bound))
            words = ["--since", since] if since else []
            found = answer(kind, native.image, bound, *words, "--", *query)["found"]
            expected = [[hit["tag"], grouped(hit["distance"]), *native.fields(hit), grouped(lot_of[hit["tag"]]),
                         *native.code(hit)] for hit in found]
            hold(f"{native.name}: {kind} {bound} of {' '.join(query)} since {since}", rows(page, "found-rows"), expected)


def slots_in(image):
    """Tag, threshold and whether it is live of each slot, from the bytes of an image of form 2."""
    sizes = 8 + 4 * (image[0] + 1)
    built = [int.from_bytes(image[at:at + 2], "little") for at in range(8, sizes, 4)]
    number = lambda at, length: int.from_bytes(image[at:at + length], "little")
    records = sizes + 8 * sum(built)
    return [[f"{number(sizes + 8 * slot, 8):015}", number(records + 42 * slot + 32, 4),
             number(records + 42 * slot + 36, 4) == 0] for slot in range(sum(built))]


def hold_summary(page, native):
    table, head = native.show["table"], list(native.head.values())

    def ends(key, text):
        return " to ".join(dict.fromkeys(text(end(one[key] for one in head)) for end in (min, max)))

    shown = dict(zip(page.texts("#facts dt"), page.texts("#facts dd")))
    dues, dead = native.due(list(native.head)), sum(bucket["dead"] for bucket in native.show["buckets"])
    expected = {
        "Head": f"{table['head']:,} of at most {table['capacity']:,}",
        "Kilos": ends("kg", lambda kg: f"{kg:.2f}"), "Days": ends("day", str),
        "Dues of all": "none: a head is below 0 kg" if dues == "below 0 kg" else dues,
        "Weights": ", ".join(f"{name} {weight}" for name, weight in zip(MEASURES, table["weights"])),
        "Image": f"{native.show['bytes']:,} bytes, {dead:,} removed head not cleared yet",
    }
    hold(f"{native.name}: the summary", {key: shown.get(key) for key in expected}, expected)
    hold(f"{native.name}: the metric", shown["Likeness"].split(":")[0], table["metric"])
    page.see("at('stored').open = true; showTrees()")
    fields = ("bucket", "room", "built", "live", "dead")
    hold(f"{native.name}: the buckets", [row[:5] for row in page.rows("#stored table")],
         [[grouped(bucket[field]) for field in fields] for bucket in native.show["buckets"]])
    in_use = [bucket for bucket in reversed(native.show["buckets"]) if bucket["built"]]
    slots = lambda bucket: "1 slot" if bucket["built"] == 1 else f"{bucket['built']:,} slots"
    hold(f"{native.name}: the trees", page.texts("#trees figcaption .quiet"),
         [f"{slots(bucket)}, {bucket['dead']:,} dead" for bucket in in_use])
    hold(f"{native.name}: the slots of the trees", page.see(
        "herd.table.buckets.flatMap(bucket => index.slots(bucket))"
        ".map(({ tag, threshold, isLive }) => [tagText(tag), threshold, isLive])"), slots_in(native.image.read_bytes()))
    labels = page.see("[...document.querySelectorAll('#trees .slot')].map(slot => slot.getAttribute('aria-label'))")
    told = {f"{tag} ({'live' if is_live else 'removed, still guides searches'})": f"Threshold {threshold:,}:"
            for tag, threshold, is_live in slots_in(native.image.read_bytes())}
    wrong = [label for label in labels if label.split(":")[0] not in told or
             "vantage" in label and told[label.split(":")[0]] not in label]
    hold(f"{native.name}: slots are drawn as they are", (len(labels) > 0, wrong), (True, []))
    page.see("at('stored').open = false")


# A day's work


def weigh(page, tag, measures, day, code=""):
    page.type("#tag", tag)
    for field, value in zip([*(f"new-{name}" for name in MEASURES), "new-code"], [*measures, code]):
        page.type(f"#{field}", value)
    if day is not None:
        page.type("#day", str(day))
    return told_after(page, lambda: page.click("#weigh"))


def hold_day(browser, folder):
    """A herd started, filled, changed and saved in the page, and by the program."""
    image, down = folder / "day.img", folder / "down"
    browser.call("Browser.setDownloadBehavior", behavior="allow", downloadPath=str(down))
    herd("page", "-o", folder / "empty.html")
    page = Page(browser, folder / "empty.html", 1280, 900)
    wait(page, "index")
    hold("without a herd only files are shown",
         page.see("[...document.querySelectorAll('main, #save')].every(part => !part.checkVisibility()) && at('files').open"),
         True)
    page.see("at('order').value = 4; at('metric').value = 0")
    page.type("#weight-hip", "101")
    hold("a weight is refused", told_after(page, lambda: page.click("#start")), "Refused: a weight is above 100")
    hold("beside its field", blamed(page), [["weight-hip", "a weight is above 100"]])
    page.type("#weight-hip", "3")
    hold("a herd is started", told_after(page, lambda: page.click("#start")), "An empty herd was started")
    herd("new", image, "--order", 4, "--metric", "sum", "--weights", "1,3,1,1")

    page.see("at('files').open = true")
    page.type("#list-day", "412")
    hold("a list is read", told_after(page, lambda: give(page, EXAMPLES / "sound.list")), "8 added, 0 replaced, 0 refused")
    herd("read", image, EXAMPLES / "sound.list", "--day", 412)
    sheet = folder / "sheet.list"
    text = (EXAMPLES / "sound.list").read_text().replace("412,50", "420,00").replace("\n", "\r\n").rstrip("\r\n")
    sheet.write_bytes(b"\xef\xbb\xbf" + text.encode())
    page.type("#list-day", "413")
    page.click("#list-again")
    hold("a spreadsheet's list is weighed again", told_after(page, lambda: give(page, sheet)),
         "0 added, 8 replaced, 0 refused\nput right before it was read: a byte order mark, "
         "a last line without its line feed, carriage returns")
    herd("read", image, sheet, "--day", 413, "--replace")
    page.click("#list-again")

    code = "0123456789abcdef0123456789abcdef"
    hold("a head is added", weigh(page, "036000000000900", ["450", "130,5", "190.25", "-0.5"], 430, code.upper()),
         "036000000000900 was added")
    herd("add", image, "036000000000900", "450.00", "130.50", "190.25", "-0.50", code, "--day", 430)
    hold("one is weighed again, and blank fields stay", weigh(page, "036000000000900", ["430.5", "", "", ""], 431),
         "036000000000900 was weighed again")
    herd("add", image, "036000000000900", "430.50", "130.50", "190.25", "-0.50", code, "--day", 431, "--replace")
    page.type("#tag", "036000000000103")
    hold("one is removed", told_after(page, lambda: page.click("#remove")), "036000000000103 was removed")
    herd("remove", image, "036000000000103")
    hold("one more", weigh(page, "840000000000001", ["1", "1", "1", "1"], 1), "840000000000001 was added")
    hold("and undone", (told_after(page, lambda: page.click("#undo")), page.text("#size")),
         ("The last change was undone", "8 head"))
    # as the terminal's, an image that was loaded: the removed head that guide searches are in it
    hold("what is not saved is asked about", page.see("dispatchEvent(new Event('beforeunload', { cancelable: true }))"),
         False)
    hold("what was saved is told", told_after(page, lambda: page.click("#save")),
         "new.img was saved, where the browser puts what it downloads")
    end = time.monotonic() + 10
    while not (down / "new.img").exists() and time.monotonic() < end:
        time.sleep(.05)
    time.sleep(.2)
    hold("the saved image is the terminal's, byte for byte", (down / "new.img").read_bytes(), image.read_bytes())
    hold("what is saved is not", page.see("dispatchEvent(new Event('beforeunload', { cancelable: true }))"), True)
    hold_image(page, Native(image), [0, 300, 900, 5000, 60000])
    hold_refused(page, image, folder)
    hold_rebuilt(page, image, folder)
    hold_alone(page)
    page.close()


def hold_documented(browser, folder):
    """The day of the document's first part, in the page and by the program."""
    image, right = folder / "documented.img", folder / "right.list"
    right.write_text((EXAMPLES / "fault.list").read_text().replace("409.00", "409,00"))
    herd("new", image, "--head", 300, "--metric", "sum")
    herd("read", image, EXAMPLES / "sound.list", "--day", 320)
    herd("read", image, EXAMPLES / "fault.list", "--day", 321, "--replace", status=1)
    herd("read", image, right, "--day", 321, "--replace")
    code = "00ff" * 8
    herd("add", image, "036000000000120", "455.00", "131.00", "190.00", "1.10", code, "--day", 321)
    page = Page(browser, folder / "empty.html", 1280, 900)
    wait(page, "index")
    page.see("at('order').value = 9")
    page.click("#start")
    page.click("#files summary")
    page.type("#list-day", "320")
    told = told_after(page, lambda: give(page, EXAMPLES / "sound.list"))
    hold("documented: the first list", told, "8 added, 0 replaced, 0 refused")
    hold("the crate's day is the list's", page.see("at('day').value"), "320")
    page.type("#list-day", "321")
    page.click("#list-again")
    told = told_after(page, lambda: give(page, EXAMPLES / "fault.list"))
    hold("documented: the second list", told, "0 added, 7 replaced, 1 refused\n"
         "line 5, field 2: `409.00` has a point where a comma belongs")
    told = told_after(page, lambda: give(page, right))
    hold("documented: the second list, put right", told, "0 added, 8 replaced, 0 refused")
    hold("documented: a head is added, its day untouched",
         weigh(page, "036000000000120", ["455", "131", "190", "1.1"], None, code), "036000000000120 was added")
    hold("the crate's day is the last list's", page.see("at('day').value"), "321")
    page.type("#radius", "20.00")
    drafted(page, 2000)
    hold("documented: lots by 20.00", page.text("#drafted"), "6 lots, the largest of 3 head")
    page.type("#tag", "036000000000106")
    page.click("#remove")
    hold("documented: one is removed", page.text("#size"), "8 head")
    page.click("#undo")
    hold("documented: the same image", bytes(page.see("[...herd.image]")), image.read_bytes())
    page.type("#day", "319")
    page.type("#list-day", "310")
    told_after(page, lambda: give(page, right))
    hold("a day that was typed stays", page.see("at('day').value"), "319")
    page.type("#day", "")
    told_after(page, lambda: give(page, right))
    hold("and none that is blank; the list's day need not be the herd's last", page.see("[at('day').value, herd.lastDay]"),
         ["310", 321])
    told_after(page, lambda: give(page, folder / "worst.img"))
    hold("of an image it is the last day", page.see("at('day').value"), "301")
    page.close()


def hold_refused(page, image, folder):
    number = "a number such as 412.50 belongs here"
    far = "a measure is not -10,000.00 to 10,000.00"
    for tag, measures, day, field, words in [
            ("36", ["1", "1", "1", "1"], 1, "tag", "a tag is 15 digits"),
            ("000000000000001", ["1", "1", "1", "1"], 1, "tag",
             "the tag's country is not 1 to 999, or its national number is above 274,877,906,943"),
            ("036000000000901", ["1", "10000.01", "1", "1"], 1, "new-hip", far),
            ("036000000000102", ["1", "1", "1", "-10000,01"], 1, "new-gain", far),
            ("036000000000901", ["1", "1", "1", "x"], 1, "new-gain", number),
            ("036000000000901", ["1", "1", "", "1"], 1, "new-girth", number),
            ("036000000000901", ["1", "1", "1", "1"], 0, "day", "the day is 0"),
            ("036000000000901", ["1", "1", "1", "1"], 65536, "day", "a whole number up to 65,535 belongs here")]:
        hold(f"refused: {tag} {measures} {day}", weigh(page, tag, measures, day), f"Refused: {words}")
        hold(f"beside its field: {field}", blamed(page), [[field, words]])
    page.type("#day", "1")
    hold("what is typed in again is not blamed", blamed(page), [])
    page.type("#like-tag", "036000000000102")
    page.click("#by-count")
    page.type("#count", "0")
    hold("the nearest 0", blamed(page), [["count", "the nearest 0 head were asked for"]])
    page.type("#count", "10")
    page.type("#radius", "1e9")
    hold("a radius that is none", blamed(page),
         [["radius", "a whole number up to 4,294,967,295, or one with a point such as 20.00, belongs here"]])
    page.type("#radius", "9.00")
    drafted(page, 900)
    hold("a radius in units", blamed(page), [])
    bytes_of = image.read_bytes()
    length = "7 BAD_LENGTH: the image's length is wrong, or past the part of the states that it is in"
    for what, bad, words in [
            ("weight", bytes_of[:5] + b"\x65" + bytes_of[6:], "32 BAD_WEIGHT: a weight is above 100"),
            ("cut", bytes_of[:-1], length), ("long", bytes_of + bytes(500000), length), ("nothing", b"", length),
            ("order", b"\x0d" + bytes_of[1:], "3 BAD_ORDER: the order is above 12"),
            ("form", bytes_of[:2] + b"\x03" + bytes_of[3:],
             "8 BAD_IMAGE: the image is of no known form, or a field of some slot breaks a rule")]:
        (folder / what).write_bytes(bad)
        hold(f"an image is refused: {what}", told_after(page, lambda: give(page, folder / what)),
             f"Refused: {what} is no herd image that can be opened. {words}")
        hold(f"and the herd is as it was: {what}", page.see("[...index.write()]"), list(bytes_of))
    hold_refused_trees(page, bytes_of, folder)
    hold_lists(page, image, folder)


def read_told(image, listed, *words):
    """What the program says of a list, on a copy of the image: the counts, and the lines on standard error."""
    copy = listed.with_suffix(".copy")
    copy.write_bytes(image.read_bytes())
    done = subprocess.run([PROGRAM, "read", copy, listed, *words], capture_output=True, text=True)
    told = [line.removeprefix(f"herd: {listed}")[2:] for line in done.stderr.splitlines()]
    counts = done.stdout.removeprefix(f"{copy}: ").rsplit(",", 1)[0]
    return [counts, *(line for line in told if not line.startswith("with --replace"))]


FAULTY = [
    # the form, field by field
    [b"", b"1", b"036000000000501;1,00;1,00;1,00", b"03600000000050;1,00;1,00;1,00;1,00", b"x;1,00;1,00;1,00;1,00",
     b"036000000000501;409.00;1,00;1,00;1,00", b"036000000000501;1,00;;1,00;1,00", b"036000000000501;1,00;1,00;1;1,00",
     b"036000000000501;1,00;1,00;1,00;1,0", b"036000000000501;1,00;1,00;1,00;-"],
    # more of it, the range, a tag that is none, and one more than are told
    [b"036000000000501;000001,00;1,00;1,00;1,00", b"036000000000501;,50;1,00;1,00;1,00",
     b"036000000000501;1,00;1,00;209,00\xa0;1,00", b"036000000000501;1,00;1 0,00;1,00;1,00",
     "\u00a0;1,00;1,00;1,00;1,00".encode(), b"000000000000001;1,00;1,00;1,00;1,00", b"036999999999999;1,00;1,00;1,00;1,00",
     b"036000000000501;10000,01;1,00;1,00;1,00", b"036000000000501;1,00;1,00;1,00;-10000,01",
     b"036000000000501;1,00;\t;1,00;1,00", b"036000000000501;1,00;1,x0;1,00;1,00", b"036000000000501;1,00\r\r",
     b"036000000000501;" + b"9" * 60 + b";1,00;1,00;1,00"],
    # more head than there is room for, behind some that are there
    [b"036000000000101;1,00;1,00;1,00;1,00", *(b"0360000000005%02d;1,00;1,00;1,00;1,00" % at for at in range(12))],
]


def hold_lists(page, image, folder):
    """Lists that are refused in part or as a whole, in the words of the program."""
    page.see("at('files').open = true")
    page.type("#list-day", "5")
    for at, lines in enumerate(FAULTY):
        listed = folder / f"faulty{at}.list"
        for end in (b"\n", b"\r\n"):
            begin = b"" if end == b"\n" else b"\xef\xbb\xbf"
            listed.write_bytes(begin + end.join([b"tag;kg;hip;girth;gain", *lines]) + end)
            told = told_after(page, lambda: give(page, listed))
            hold(f"a list with faults is told by its lines: {at}", told.splitlines(), read_told(image, listed, "--day", "5"))
            page.click("#undo")
    for what, header in [("cut", "tag;kg"), ("commas", "tag,kg,hip,girth,gain"), ("large", "Tag;Kg;Hip;Girth;Gain"),
                         ("html", "<!doctype html>"), ("blank", "")]:
        listed = folder / f"{what}.list"
        listed.write_text(f"{header}\n036000000000501;1,00;1,00;1,00;1,00\n")
        hold(f"another header: {what}", told_after(page, lambda: give(page, listed)),
             f"Refused: {read_told(image, listed)[1]}")
    page.type("#list-day", "0")
    hold("a list on day 0", (told_after(page, lambda: give(page, EXAMPLES / "sound.list")), blamed(page)),
         ("Refused: the day is 0", [["list-day", "the day is 0"]]))
    page.type("#list-day", "5")
    for what, bad, words in [
            ("wide.list", "\ufefftag;kg;hip;girth;gain\n".encode("utf-16-le"),
             "Refused: it is saved as UTF-16; save it as UTF-8, in a spreadsheet as CSV UTF-8"),
            ("yard.csv", b"tag,day,kg,hip,girth,gain,code\n", "Refused: it is a list as `herd list --csv` writes it, "
             "which `herd read` takes; this is for a scale head's")]:
        (folder / what).write_bytes(bad)
        hold(f"a list is refused: {what}", told_after(page, lambda: give(page, folder / what)), words)


def hold_refused_trees(page, image, folder):
    """Every byte of the first threshold, tag and measure: what the program says of it, by number and slot."""
    names = {36: "DUPLICATE_TAG", 37: "MISPLACED_ITEM", 38: "BAD_THRESHOLD"}
    seen = set()
    for at in range(28, len(image), 3):
        bad = bytearray(image)
        bad[at] ^= 1
        (folder / "tree.img").write_bytes(bad)
        done = subprocess.run([PROGRAM, "check", "--json", folder / "tree.img"], capture_output=True, text=True)
        native = json.loads(done.stdout)
        if native["refusal"] not in names or (native["refusal"], native["slot"]) in seen:
            continue
        seen.add((native["refusal"], native["slot"]))
        told = told_after(page, lambda: give(page, folder / "tree.img"))
        hold(f"a tree is refused as `check` does: byte {at}", told.split("opened. ")[1].split(":")[0],
             f"{native['refusal']} {names[native['refusal']]}, slot {native['slot']}")
        if len(seen) == 6:
            return
    hold("trees were refused", len(seen) > 2, True)


def hold_rebuilt(page, image, folder):
    page.see("at('files').open = true; at('order').value = 6; at('metric').value = 2; at('weight-hip').value = 1")
    hold("the herd is built again", told_after(page, lambda: page.click("#rebuild")), "The herd was built again")
    herd("copy", image, folder / "copy.img", "--order", 6, "--metric", "worst", "--weights", "1,1,1,1")
    hold("as `copy` does, byte for byte", bytes(page.see("[...herd.image]")), (folder / "copy.img").read_bytes())
    page.see("at('order').value = 2")
    hold("but not where there is no room", told_after(page, lambda: page.click("#rebuild")),
         "Refused: the herd holds as many head as its order allows")
    hold("which is told beside the room", [field for field, _ in blamed(page)], ["order"])
    drop = """(name, bytes) => {
      const given = new DataTransfer();
      given.items.add(new File([new Uint8Array(bytes)], name));
      dispatchEvent(new DragEvent('drop', { dataTransfer: given, cancelable: true }));
    }"""
    dropped = list(image.read_bytes())
    hold("a file is dropped", told_after(page, lambda: page.see(f"({drop})('dropped.img', {dropped})")),
         "dropped.img was opened")
    hold("and is the herd", page.see("[...herd.image]"), dropped)


def hold_alone(page):
    complaints, asked = page.told()
    hold("the browser complains of nothing", complaints, [])
    hold("nothing is asked for but the page and its workers", sorted({url.split(":")[0] for url in asked} - {"blob"}), ["file"])
    hold("the policy lets nothing out", page.see("fetch('https://example.com/').then(() => 'sent', () => 'kept')"), "kept")


def hold_dates(browser, folder):
    """Days as dates, where the date of day 1 is known."""
    image, day_one = folder / "worst.img", ["--day-one", "2026-01-01"]
    herd("page", image, "-o", folder / "dates.html", *day_one)
    page = Page(browser, folder / "dates.html", 1280, 900)
    wait(page, "herd")
    dates = [head["date"] for head in answer("list", image, *day_one)]
    hold("dates of all head", [row[1] for row in rows(page, "head-rows")], dates)
    page.type("#like-tag", "001000000000001")
    page.type("#since", "2026-10-28")
    found = answer("nearest", image, 10, "001000000000001", "--since", "2026-10-28", *day_one)["found"]
    hold("since a date", [row[:3] for row in rows(page, "found-rows")],
         [[hit["tag"], grouped(hit["distance"]), hit["date"]] for hit in found])
    words = "a date from 2026-01-01 to 2205-06-06, today or the number of a day belongs here"
    for typed in ("2025-12-31", "2026-02-30", "2205-06-07", "17.11.2026", "yesterday", "65536"):
        page.type("#since", typed)
        hold(f"no such day: {typed}", blamed(page), [["since", words]])
    page.type("#since", "")
    hold("no such day at the crate", (weigh(page, "001000000000001", ["1", "", "", ""], "17.11.2026"), blamed(page)),
         (f"Refused: {words}", [["day", words]]))
    page.see("at('files').open = true")
    page.type("#list-day", "17.11.2026")
    hold("no such day of a list", (told_after(page, lambda: give(page, EXAMPLES / "sound.list")), blamed(page)),
         (f"Refused: {words}", [["list-day", words]]))
    page.type("#list-day", "2026-11-16")
    told_after(page, lambda: give(page, EXAMPLES / "sound.list"))
    hold("the day of a list as a date", page.see("herd.byTag.get(36000000000101n).day"), 320)
    hold("weighed on a date", weigh(page, "001000000000001", ["1", "", "", ""], "2026-11-17"),
         "001000000000001 was weighed again")
    hold("which is its day", page.see("herd.byTag.get(1000000000001n).day"), 321)
    page.close()
    hold_today(browser, folder)


def hold_today(browser, folder):
    """Dates in an empty page whose day 1 was yesterday, by the clock of the machine."""
    before = time.strftime("%Y-%m-%d", time.localtime(time.time() - 24 * 3600))
    herd("page", "-o", folder / "today.html", "--day-one", before)
    page = Page(browser, folder / "today.html", 390, 844, True)
    wait(page, "index")
    today = time.strftime("%Y-%m-%d")
    hold("a list is of today", page.see("at('list-day').value"), today)
    page.click("#start")
    wait(page, "herd")
    hold("and so is the crate", page.see("at('day').value"), today)
    for tag, day, number in (("036000000000101", None, 2), ("036000000000102", "today", 2), ("036000000000103", before, 1)):
        weigh(page, tag, ["1", "1", "1", "1"], day)
        hold(f"weighed on {day}", page.see(f"herd.byTag.get(BigInt('{tag}'))?.day"), number)
    page.type("#like-tag", "036000000000101")
    page.type("#since", "today")
    hold("since today", [row[0] for row in rows(page, "found-rows")], ["036000000000101", "036000000000102"])
    page.see("at('files').open = true")
    page.type("#day", "")
    page.type("#list-day", before)
    told_after(page, lambda: give(page, EXAMPLES / "sound.list"))
    hold("the crate's date is the list's", page.see("at('day').value"), before)
    page.see("['day', 'since', 'list-day'].forEach(id => { at(id).value = '2026-12-28'; })")
    hold("dates have room", page.see("['day', 'since', 'list-day'].filter(id => at(id).scrollWidth > at(id).clientWidth)"), [])
    hold("a phone's width is enough for dates", page.see("document.documentElement.scrollWidth"), 390)
    page.close()


# How it looks


BEFORE = """
window.shift = 0;
new PerformanceObserver(list => list.getEntries().forEach(entry => { window.shift += entry.value; }))
  .observe({ type: "layout-shift", buffered: true });
new MutationObserver(() => {
  if (!window.firstLots && document.getElementById("drafted")?.textContent) window.firstLots = performance.now();
  if (!window.firstCurve && document.querySelector("#plot polyline")) window.firstCurve = performance.now();
}).observe(document, { subtree: true, childList: true, characterData: true });
"""
CONTRAST = """(() => {
  const parts = text => (text.match(/[\\d.]+/g) || []).map(Number);
  const part = value => (value /= 255) <= .03928 ? value / 12.92 : ((value + .055) / 1.055) ** 2.4;
  const light = ([r, g, b]) => .2126 * part(r) + .7152 * part(g) + .0722 * part(b);
  const ground = element => {
    for (; element; element = element.parentElement) {
      const colour = parts(getComputedStyle(element).backgroundColor);
      if (colour.length === 3 || colour[3] > 0) return colour;
    }
    return [255, 255, 255];
  };
  let least = [99, ""];
  document.querySelectorAll("body *").forEach(element => {
    if (!element.checkVisibility() || element.disabled) return;
    const hasText = [...element.childNodes].some(node => node.nodeType === 3 && node.data.trim());
    if (!hasText && !element.matches("input, select")) return;
    const styles = [getComputedStyle(element), ...(element.placeholder ? [getComputedStyle(element, "::placeholder")] : [])];
    styles.forEach(style => {
      const ink = light(parts(element instanceof SVGElement ? style.fill : style.color)), behind = light(ground(element));
      const ratio = (Math.max(ink, behind) + .05) / (Math.min(ink, behind) + .05);
      if (ratio < least[0]) least = [ratio, `${element.tagName}#${element.id} ${element.textContent.trim().slice(0, 20)}`];
    });
  });
  return least;
})()"""
UNNAMED = """[...document.querySelectorAll("input, select, button, a, [tabindex]")].filter(control => {
  const named = control.labels?.[0]?.innerText || control.getAttribute("aria-label") || control.innerText ||
    document.getElementById(control.getAttribute("aria-labelledby"))?.innerText;
  return control.checkVisibility() && (!named?.trim() || control.tabIndex < (control.matches("h2, .slot") ? -1 : 0));
}).map(control => control.outerHTML.slice(0, 80))"""


def opened(browser, html, width=1280, height=900, is_phone=False, before=""):
    page = Page(browser, html, width, height, is_phone)
    page.call("Page.addScriptToEvaluateOnNewDocument", source=BEFORE + before)
    page.call("Page.navigate", url=page.url)
    wait(page, "window.firstLots && window.firstCurve", 60)
    return page


def hold_looks(browser, html, native):
    page = opened(browser, html)
    time.sleep(.5)
    hold("nothing shifts while it opens", page.see("shift"), 0)
    for scheme in ("light", "dark"):
        page.call("Emulation.setEmulatedMedia", features=[{"name": "prefers-color-scheme", "value": scheme}])
        page.see("at('stored').open = at('files').open = true; chooseHead(herd.head[0].tag); showTrees(); "
                 "blame(at('tag'), 'wrong'); tell('told')")
        for is_refused in ("false", "true"):
            ratio, where = page.see(f"tell('told', {is_refused}); {CONTRAST}")
            hold(f"{scheme}: contrast of at least 4.5, {where}", ratio >= 4.5, True)
    page.see("tell('')")
    hold("every control has a name, and keys reach it", page.see(UNNAMED), [])
    page.close()
    page = opened(browser, html, 390, 844, True)
    page.see("at('stored').open = at('files').open = true; chooseHead(herd.head[0].tag); showTrees()")
    hold("a phone's width is enough", page.see("document.documentElement.scrollWidth"), 390)
    page.close()
    page = opened(browser, html, before="window.Worker = class { constructor() { throw new Error('none') } };")
    page.type("#radius", "2000")
    drafted(page, 2000)
    total, lots = native.lots(2000)
    hold("without a worker the page drafts", rows(page, "lot-rows"), list(native.lot_rows(lots)))
    hold_paper(page, native, lots)
    page.close()


def hold_paper(page, native, lots):
    page.call("Emulation.setEmulatedMedia", media="print")
    page.see("layOutSheet()")
    tables = page.see("[...document.querySelectorAll('#sheet table')].map(table => table.checkVisibility() && "
                      "[table.tHead.innerText, [...table.tBodies[0].rows].map(row => [...row.cells].map(cell => cell.innerText))])")
    expected = [[[tag, *native.fields(native.head[tag]), native.due([tag])] for tag in tags] for tags in lots]
    hold("every head is on the paper, a table for each lot", [table[1] for table in tables], expected)
    today = time.strftime("%Y-%m-%d")
    marks = lambda at: (f"Lot {at:,} of {len(lots):,}:", native.name, "radius 2,000", today)
    hold("file, radius and date are on each", [at for at, (head, _) in enumerate(tables, 1)
                                               if not all(mark in head for mark in marks(at))], [])
    page.see("at('sheet').replaceChildren()")
    pages = page.paper().count(b"/Type /Page\n") or page.paper().count(b"/Type/Page")
    hold("it goes over pages", pages > 1, True)
    hold("and the screen is as it was", page.see("at('sheet').childElementCount"), 0)


# How long it takes


MOVE = """(async place => {
  const slide = at("slide"), before = slide.getAttribute("aria-valuetext"), begun = performance.now();
  slide.value = place;
  slide.dispatchEvent(new Event("input", { bubbles: true }));
  while (slide.getAttribute("aria-valuetext") === before) await new Promise(done => setTimeout(done));
  return [Math.round(performance.now() - begun), lots.length];
})(%d)"""
MANY_TIMES = "(() => { const begun = performance.now(); for (let i = 0; i < %d; i++) { %s } return (performance.now() - begun) / %d; })()"


def show_times(browser, html, native):
    print(f"a page with {len(native.head):,} head: {html.stat().st_size:,} bytes")
    firsts = []
    for _ in range(5):
        page = opened(browser, html)
        firsts.append(page.see("Math.round(firstLots)"))
        page.close()
    print(f"opened to the first lots: {min(firsts)} to {max(firsts)} ms")
    page = opened(browser, html)
    moves = [page.see(MOVE % place) for place in (10, 40, 80, 120, 160, 200, 300, 399, 1)]
    print("a radius moved, ms (lots): " + ", ".join(f"{ms} ({lots:,})" for ms, lots in moves))
    some = "const head = herd.head[i * 37 % herd.head.length]; "
    search = page.see(MANY_TIMES % (100, some + "at('like-tag').value = tagText(head.tag); likeTag();", 100))
    again = page.see(MANY_TIMES % (5, some + "at('tag').value = tagText(head.tag); showCrate(); weighTyped();", 5))
    print(f"a search: {search:.1f} ms; weighed again and all shown anew: {again:.0f} ms")
    page.close()


# Herds


def list_of(rng, count):
    """Head around some centres, as breeds and ages are."""
    centres = [[rng.randrange(20000, 70000), rng.randrange(11000, 14500), rng.randrange(15000, 21000),
                rng.randrange(50, 150)] for _ in range(max(2, count // 100))]
    for i in range(count):
        centre = rng.choice(centres)
        measures = [value + round(rng.gauss(0, spread)) for value, spread in zip(centre, (900, 200, 300, 60))]
        yield f"{840 if i % 3 else 36:03}{i * 7919 % 4099:012}", measures


def values(measures, point):
    return [f"{'-' if value < 0 else ''}{abs(value) // 100}{point}{abs(value) % 100:02}" for value in measures]


def make(folder):
    rng = random.Random(5)
    scale = lambda head: "tag;kg;hip;girth;gain\n" + "".join(
        ";".join([tag, *values(measures, ",")]) + "\n" for tag, measures in head)
    for name, order, count, more in [("eight", 4, 8, []), ("full", 12, 4096, []),
                                     ("worst", 8, 200, ["--weights", "3,0,100,1"])]:
        metric = "worst" if name == "worst" else "sum"
        herd("new", folder / f"{name}.img", "--order", order, "--metric", metric, *more)
        head = [] if name == "eight" else list(list_of(rng, count))
        (folder / f"{name}.list").write_text(scale(head))
        listed = EXAMPLES / "sound.list" if name == "eight" else folder / f"{name}.list"
        herd("read", folder / f"{name}.img", listed, "--day", 300)
    tags = [head["tag"] for head in answer("list", folder / "worst.img")]
    herd("remove", folder / "worst.img", "-", given="\n".join(rng.sample(tags, 60)))
    herd("add", folder / "worst.img", "001000000000001", "-5.00", "0.00", "0.00", "0.00", "-", "--day", 301)
    herd("new", folder / "bits.img", "--order", 7, "--metric", "bits")
    rows_of = [",".join([tag, str(rng.randrange(1, 400)), *values(measures, "."), f"{rng.getrandbits(128):032x}"])
               for tag, measures in list_of(rng, 90)]
    herd("read", folder / "bits.img", "-", given="tag,day,kg,hip,girth,gain,code\n" + "\n".join(rows_of) + "\n")
    return [("eight.img", [0, 456, 457, 1000, 5800, FULL_RADIUS]), ("worst.img", [0, 400, 3000, 16000, 90000]),
            ("bits.img", [0, 40, 50, 60, 90]), ("full.img", [300, 800, 5000])]


def main():
    with tempfile.TemporaryDirectory() as name:
        folder = Path(name)
        herds = make(folder)
        for image, _ in herds:
            herd("page", folder / image, "-o", folder / f"{image}.html")
        browser = Browser(find(), folder / "browser")
        try:
            if "--picture" in sys.argv:
                page = opened(browser, folder / "full.img.html", 1280, 900)
                page.see("chooseHead(herd.head[0].tag); document.activeElement.blur(); scrollTo(0, 0)")
                time.sleep(.5)
                Path(sys.argv[sys.argv.index("--picture") + 1]).write_bytes(page.picture(1280, 1240))
                return
            if "--times" in sys.argv:
                return show_times(browser, folder / "full.img.html", Native(folder / "full.img"))
            for image, radii in herds:
                page = Page(browser, folder / f"{image}.html", 1280, 900)
                wait(page, "herd")
                hold_image(page, Native(folder / image), radii)
                hold(f"{image}: the browser complains of nothing", page.told()[0], [])
                page.close()
            hold_day(browser, folder)
            hold_documented(browser, folder)
            hold_dates(browser, folder)
            hold_looks(browser, folder / "full.img.html", Native(folder / "full.img"))
        finally:
            browser.close()
    print(f"the page: {held} things held, {len(failed)} not; {cells:,} cells are what the program prints")
    sys.exit(len(failed) > 0)


main()
