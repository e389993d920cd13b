#!/usr/bin/env python3
"""What js/vpindex.js has from the header: constants, refusals in words, and where the fields of structs are. Names are
read from include/vpindex.h; values are what the C compiler makes of them.

    tools/js_header.py           writes that part of js/vpindex.js
    tools/js_header.py --check   it has to be there as it would be written
    tools/js_header.py --sizes   how long an area is for each order, for the test in node
"""
import json
import re
import subprocess
import sys
import tempfile
from pathlib import Path

HOME = Path(__file__).resolve().parent.parent
HEADER = (HOME / "include/vpindex.h").read_text()
SCRIPT = HOME / "js/vpindex.js"
BEGIN = "// ---- from include/vpindex.h, by tools/js_header.py ----\n"
END = "// ---- end of what is from the header ----\n"


def written_by_c(expressions, form):
    """What a C program that includes the header writes for each expression, a line each."""
    body = "".join(f'    printf("{form}\\n", {expression});\n' for expression in expressions)
    program = f'#include "vpindex.h"\n#include <stdio.h>\nint main(void) {{\n{body}    return 0;\n}}\n'
    with tempfile.TemporaryDirectory() as folder:
        built = f"{folder}/written"
        words = ["cc", "-std=c11", f"-I{HOME}/include", "-x", "c", "-", "-o", built]
        subprocess.run(words, input=program, check=True, text=True)
        return subprocess.run([built], check=True, capture_output=True, text=True).stdout.splitlines()


def numbers(expressions):
    return [int(line) for line in written_by_c([f"(long long)({one})" for one in expressions], "%lld")]


def constants():
    found = re.findall(r"^#define VPINDEX_(\w+) (?!const\b)(\S.*?)(?: +/\*.*)?$", HEADER, re.M)
    plain = [name for name, value in found if not value.startswith('"')]
    values = dict(zip(plain, numbers([f"VPINDEX_{name}" for name in plain])))
    for name, value in found:
        if name not in values:
            yield f"export const {name} = {value};\n"
        else:
            wide = "n" if re.search(r"UINT64_C|VPINDEX_TAG", value) else ""
            yield f"export const {name} = {values[name]}{wide};\n"


def refusals():
    names = [name for name in re.findall(r"^    case VPINDEX_(\w+):", HEADER, re.M) if name != "ACCEPTED"]
    values = numbers([f"VPINDEX_{name}" for name in names])
    words = written_by_c([f"vpindex_refusal_text(VPINDEX_{name})" for name in names], "%s")
    yield "const REFUSALS = {\n"
    for value, name, sentence in sorted(zip(values, names, words)):
        yield f"  {value}: [{json.dumps(name)}, {json.dumps(sentence)}],\n"
    yield "};\n"


def struct(name, body):
    """A struct's bytes and the place of each field; those that are one number of 32 bits together."""
    fields = re.findall(r"^    (\w+) (\w+)(\[\w+\])?;", body, re.M)
    size, *places = numbers([f"sizeof({name})"] + [f"offsetof({name}, {field})" for _, field, _ in fields])
    placed = list(zip(fields, places))
    plain = [f"{field}: {at}" for (kind, field, array), at in placed if kind == "uint32_t" and not array]
    other = [f"{field}: {at}" for (kind, field, array), at in placed if kind != "uint32_t" or array]
    return f"{{ {', '.join([f'bytes: {size}'] + other + ['numbers: { ' + ', '.join(plain) + ' }'] * bool(plain))} }}"


def structs():
    found = re.findall(r"^typedef struct \{\n(.*?)^\} (vpindex_(\w+));", HEADER, re.M | re.S)
    shapes = {short: (struct(name, body), "refusal;" in body) for body, name, short in found}
    yield f"const PROFILE = {shapes['profile'][0]};\n"
    yield "const REPLIES = {\n"
    for short, (shape, reply) in shapes.items():
        if reply:
            yield f"  {short}: {shape},\n"
    yield "};\n"


def sizes():
    """By name, a number for each order."""
    names = re.findall(r"^#define VPINDEX_(\w+)\(order\)", HEADER, re.M)
    return {name: numbers([f"VPINDEX_{name}({order})" for order in range(13)]) for name in names}


def main(words):
    if words == ["--sizes"]:
        print(json.dumps(sizes()))
        return 0
    text = SCRIPT.read_text()
    before, after = text[: text.index(BEGIN)], text[text.index(END) :]
    made = before + BEGIN + "".join([*constants(), *refusals(), *structs()]) + after
    if words == ["--check"]:
        if made != text:
            print("js/vpindex.js has other constants, refusals or places than the header: run tools/js_header.py")
        return int(made != text)
    SCRIPT.write_text(made)
    return 0


if __name__ == "__main__":
    sys.exit(main(sys.argv[1:]))
