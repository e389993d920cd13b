#!/usr/bin/env python3
"""Respells the repository's own definitions and lemmas after port.py: words in snake case, as `order_of` for `orderOf` and
`all_same` for `all-same`. Types, modules, names from the sources, generated names and local variables keep their spelling.
Run once, at the top, on what port.py wrote. A lemma whose new name is that of a definition gets `_lem`.

usage: tools/respell.py [--show]
"""
import os
import re
import sys

TOKEN = re.compile(r"[^\s(){}\[\];,.:`'\"=]+'*")
DECLARED = re.compile(r"^(\s*)((?:pub |abbrev |unfoldable |opaque )*)([^\s(){}\[\];,.:]+)(?= :(?:\s|$))")
# Answers to goals and what closes a proof are named by what the prover asks for.
GENERATED = re.compile(r"tie\.(Need|invariant|decreases)|statement M|statements? ")
# A word that a library spells otherwise.
BY_HAND = {"getD": "get_or"}
# Lemmas that port.py gave the name that a definition gets here, by the file that declares each.
LEMMAS = [
    ("table_rules/proofs/Adding", "in_use"),
    ("table_rules/proofs/Live", "is_live"),
    ("image_entries/proofs/Ranking", "laid_out"),
    ("image_read/proofs/Places", "slots_at"),
    ("image_rules/proofs/Bytes", "number_at"),
    ("state_rules/proofs/Saved", "left_over"),
    ("tree_build/proofs/Halving", "laid_from"),
    ("history/proofs/FindsFirst", "slot_row"),
    ("history/proofs/FoundThere", "built_of"),
    ("history/proofs/ImagesLoaded", "header_row"),
    ("history/proofs/RefinesRepresents", "half_full"),
    ("history/proofs/RefusedKeeps", "not_found"),
    ("history/proofs/Reporting", "one_less"),
    ("history/proofs/Reporting", "one_more"),
]


def files(root, *endings):
    for folder, dirs, names in os.walk(root):
        dirs[:] = sorted(d for d in dirs if d != "out")
        for name in sorted(names):
            if name.endswith(endings):
                yield os.path.join(folder, name)


def snake(name):
    for old, new in BY_HAND.items():
        name = name.replace(old, new)
    name = re.sub(r"(?<=[a-z0-9'])([A-Z])", lambda m: "_" + m.group(1).lower(), name)
    return name.replace("-", "_")


def declared(root):
    """Each name that a file of specs/ or proofs/ declares, with whether a file of specs/ does."""
    names = {}
    for path in files(root, ".antt"):
        with open(path, encoding="utf-8") as f:
            lines = f.read().split("\n")
        for i, line in enumerate(lines):
            m = DECLARED.match(line)
            if not m or len(m.group(1)) > 2:
                continue
            whole = line
            for more in lines[i + 1 : i + 4]:
                if not more.strip() or not more.startswith(m.group(1) + "  "):
                    break
                whole += more
            if GENERATED.search(whole) or m.group(3).endswith("-spec"):
                names.setdefault(m.group(3), set()).add("generated")
                continue
            names.setdefault(m.group(3), set()).add("specs" if "/specs/" in path else "proofs")
    return names


def turned(names, words):
    """The new name of each that changes."""
    new = {}
    taken = {n for n, where in names.items() if snake(n) == n}
    spelled = {}
    for name in sorted(names, key=lambda n: ("specs" not in names[n], n)):
        where = names[name]
        if "generated" in where or not re.match(r"[a-zà-ÿ]", name):
            continue
        to = snake(name)
        if to == name:
            continue
        if "specs" not in where and (to in taken or to in spelled):
            to += "_lem"
        if to in taken or to in spelled or to in words:
            print(f"look: {name} -> {to}, which is {spelled.get(to, 'declared' if to in taken else 'in use')}", file=sys.stderr)
        spelled[to] = name
        new[name] = to
    return new


def set_lemmas_apart(root):
    """Renames each lemma of LEMMAS in its file and in the files that import it."""
    for place, name in LEMMAS:
        module = "Rattle." + place.replace("/", ".")
        token = re.compile(r"(?<![^\s(){}\[\];,])" + re.escape(name) + r"(?![^\s(){}\[\];,])")
        for path in files(root, ".antt"):
            with open(path, encoding="utf-8") as f:
                text = f.read()
            own = path == f"{root}/{place}.antt"
            if not own and not re.search(r"use " + re.escape(module) + r"\.\{[^}]*(?<![\w-])" + name + r"(?![\w-])", text):
                continue
            with open(path, "w", encoding="utf-8") as f:
                f.write(token.sub(name + "_lem", text))


def main(argv):
    root = "crates"
    if "--show" not in argv:
        set_lemmas_apart(root)
    names = declared(root)
    words = set()
    for path in files(root, ".antt", ".rt"):
        with open(path, encoding="utf-8") as f:
            words.update(TOKEN.findall(f.read()))
    new = turned(names, words)
    if "--show" in argv:
        for n in sorted(new):
            print(n, new[n])
        return 0

    def turn(m):
        return new.get(m.group(0), m.group(0))

    for path in files(root, ".antt", ".rt"):
        with open(path, encoding="utf-8") as f:
            text = f.read()
        after = TOKEN.sub(turn, text)
        if after != text:
            with open(path, "w", encoding="utf-8") as f:
                f.write(after)
    print(f"{len(new)} names")
    return 0


if __name__ == "__main__":
    sys.exit(main(sys.argv[1:]))
