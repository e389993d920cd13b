#!/usr/bin/env python3
"""How much stack each call can use, worked out from compiled code: frames along the call graph, recursions as deep as
their proved bounds let them go; and how many bytes of code all calls have.

    tools/stack.py [ARCHIVE]          a line for each call: its name and the bytes, the return address included
    tools/stack.py --target NAME      the same for another processor, whose archive is built (tools/cross.sh)
    either with --check               nothing may be more than docs/TESTING.md says
    tools/stack.py --table            the table of docs/TESTING.md, with every target built

For x86-64 the instructions are read. For the others the compiler tells each frame, and its module, as it is when only
the processor's instructions are left to be chosen, tells the calls. A function that is reached again from itself must
stand in DEPTHS; a frame or a call that is not understood is an error.
"""
import re
import subprocess
import sys
from pathlib import Path

HOME = Path(__file__).resolve().parent.parent
ARCHIVE = str(HOME / "target/staticlib/libvpindex.a")
WORD = 8

# How many frames of a function can stand at once, for 4,096 items. A tree of n slots has halves of at most n / 2, so that
# 4,096 slots are 13 deep, and 11 where seven slots or fewer are visited at once.
DEPTHS = {
    "tree_build::build_part": 13,
    "tree_range::range_tree": 11,
    "tree_range_batch::tree_together": 13,
    "tree_nearest::nearest_tree": 11,
    "image_layout::first_fault": 14,  # it is called for an empty half too
    "tree_sort::sort": 9,             # halves of 4,095 rows, down to 16
    "entry_sort::sort_within": 9,     # it calls itself for at most half of the entries, down to 16
    "entry_sort::sift": 12,           # the place more than doubles
}
LEAVES = {"memset", "memcpy", "memmove"}
# What a memory function or a division of the compiler's library can use on another processor.
LIBRARY = 128


class Function:
    def __init__(self, frame, calls=()):
        self.frame = frame  # bytes, the return address included
        self.calls = set(calls)


def lines_of(archive):
    shown = subprocess.run(
        ["objdump", "-dr", "--no-show-raw-insn", archive], check=True, capture_output=True, text=True
    )
    return shown.stdout.splitlines()


def frame_of(text, frame):
    """What an instruction makes of the frame, where it makes room in it."""
    if text.startswith("push"):
        return frame + WORD
    room = re.match(r"sub +\$(0x[0-9a-f]+),%rsp", text)
    if room:
        return frame + int(room[1], 16)
    if re.search(r"(lea|and|mov) .*,%rsp$", text):
        raise SystemExit(f"a frame that is not understood: {text}")
    return frame


def functions_in(lines):
    found, name, target, probed = {}, None, None, None
    for line in lines:
        head = re.match(r"[0-9a-f]+ <(.+)>:$", line)
        if head:
            name = head[1]
            found[name] = Function(WORD)
            continue
        moved = re.search(r"R_X86_64_PLT32\t(?:\.text\.)?([\w:]+)-0x4", line)
        if moved and target:
            found[name].calls.add(moved[1])
            target = None
            continue
        code = re.match(r" *[0-9a-f]+:\t(.*?) *$", line)
        if not code or name is None:
            continue
        text = code[1]
        # A large frame is made step by step, down to the address that stands in r11.
        probe = re.match(r"sub +\$(0x[0-9a-f]+),%r11", text)
        if probe:
            probed = int(probe[1], 16)
        if probed and re.match(r"sub +\$0x[0-9a-f]+,%rsp", text):
            found[name].frame += probed
            probed = None
            continue
        found[name].frame = frame_of(text, found[name].frame)
        target = re.match(r"(call|jmp) +[0-9a-f]+ <([^>+]+)(\+0x[0-9a-f]+)?>", text)
        if target and target[2] == name and target[3] is None and target[1] == "call":
            found[name].calls.add(name)
    return found


def frames_in(target):
    """What the compiler says that each function has on the stack, as long as it knows."""
    for file in ("module.su", "calls.su"):
        for line in (target / file).read_text().splitlines():
            told = re.match(r"[^:]*:(?:\d+:)?(.*)\t(\d+)\tstatic$", line)
            if not told:
                raise SystemExit(f"a frame that is not understood: {line}")
            yield told[1], int(told[2])


def functions_for(target):
    """The functions of another processor's archive. Any of them may turn a move of memory into a call."""
    found = {name: Function(frame, ["memmove"]) for name, frame in frames_in(target)}
    name = None
    for line in (target / "module.ll").read_text().splitlines():
        head = re.match(r'define .*?@"?([\w:.]+)"?\(', line)
        if head:
            name = head[1]
        elif re.match(r"\s.*\bcall\b", line):
            called = re.search(r'@"?([\w:.]+)"?\(', line)
            if not called:
                raise SystemExit(f"a call that is not understood: {line}")
            if not called[1].startswith("llvm."):
                found[name].calls.add(called[1])
    for name in [name for name in found if name.startswith("vpindex_proved_")]:
        found[name.replace("_proved", "")].calls.add(name)
    return found


def used_by(name, functions, library, above=()):
    """Bytes of stack from the call of a function on."""
    if name in LEAVES:
        return library
    if name not in functions:
        raise SystemExit(f"a function that is not in the archive: {name}")
    if name in above:
        raise SystemExit(f"functions that call each other: {' '.join(above)} {name}")
    function = functions[name]
    frame = function.frame
    if name in function.calls:
        if name not in DEPTHS:
            raise SystemExit(f"no bound is known for the recursion of {name}")
        frame *= DEPTHS[name]
    below = [used_by(other, functions, library, above + (name,)) for other in function.calls if other != name]
    return frame + max(below, default=0)


def bounds_of(functions, library):
    calls = [name for name in sorted(functions) if re.match(r"vpindex_(?!proved_)", name)]
    return {name: used_by(name, functions, library) for name in calls}


def code_in(file):
    """Bytes of code of an archive; of WebAssembly those of the file."""
    if file.suffix == ".wasm":
        return file.stat().st_size
    shown = subprocess.run(["size", "--format=berkeley", file], check=True, capture_output=True, text=True)
    return sum(int(line.split()[0]) for line in shown.stdout.splitlines()[1:])


def bounds_for(target):
    folder = HOME / "target" / target
    file = "vpindex.wasm" if target == "wasm32" else "libvpindex.a"
    return bounds_of(functions_for(folder), LIBRARY) | {"code": code_in(folder / file)}


def bounds_in(archive):
    return bounds_of(functions_in(lines_of(archive)), WORD) | {"code": code_in(Path(archive))}


def stated_for(target):
    """KiB by call, from the column of docs/TESTING.md."""
    text = (HOME / "docs/TESTING.md").read_text()
    names = re.search(r"^\| call \| (.* )\|$", text, re.M)[1].split(" | ")
    column = [name.strip() for name in names].index(target)
    rows = re.findall(r"^\| `?(vpindex_\w+|code)`? \| ([\d |]+) \|$", text, re.M)
    return {name: int(cells.split(" | ")[column]) for name, cells in rows}


def table():
    targets = ["x86-64"] + subprocess.run(
        ["sh", HOME / "tools/cross.sh", "--names"], check=True, capture_output=True, text=True
    ).stdout.split()
    bounds = [bounds_in(ARCHIVE) if target == "x86-64" else bounds_for(target) for target in targets]
    print(f"| call | {' | '.join(targets)} |\n|{'---|' * (len(targets) + 1)}")
    for name in bounds[0]:
        cells = [name if name == "code" else f"`{name}`"] + [str(-(-of[name] // 1024)) for of in bounds]
        print(f"| {' | '.join(cells)} |")


def main(words):
    if words == ["--table"]:
        table()
        return 0
    check = "--check" in words
    words = [word for word in words if word != "--check"]
    if words[:1] == ["--target"]:
        target, bounds = words[1], bounds_for(words[1])
    else:
        target, bounds = "x86-64", bounds_in(words[0] if words else ARCHIVE)
    if not check:
        for name, size in bounds.items():
            print(f"{name} {size}")
        return 0
    stated = stated_for(target)
    wrong = [f"{name} {size}" for name, size in bounds.items() if size > 1024 * stated.get(name, 0)]
    for line in wrong:
        print(f"more than docs/TESTING.md says of {target}: {line}")
    return 1 if wrong or stated.keys() != bounds.keys() else 0


if __name__ == "__main__":
    sys.exit(main(sys.argv[1:]))
