#!/usr/bin/env python3
"""The places of each point of docs/DESIGN-PASS.md in crates/*/src, and of point 8 in crates/*/proofs.

usage: design_count.py [COMMIT] [--list]

Counts in the tree as it stands, or in that of a commit. With --list each place stands below its count, with its file and line. What is counted is found
by form, not by name, wherever a form can be told: a place that was changed is no longer counted, and a new one of the old form is.
"""
import difflib
import re
import subprocess
import sys
from collections import defaultdict, namedtuple
from itertools import combinations
from pathlib import Path

TOP = Path(__file__).resolve().parent.parent
ARGS = [a for a in sys.argv[1:] if a != "--list"]
LIST = "--list" in sys.argv[1:]
# The C interface: its functions have the form that C has for them.
C = ("vpindex", "vpindex_c")
TOTAL = []
# What answers with a number of its range that means none.
SENTINELS = """table_look_up::slot_with text_read::part_end text_read::two_parts image_entries::less_repeated image_entries::least_repeated
    table_insert::lowest_empty tree_nearest::kept_under tree_nearest::keep_entry yard::get""".split()
# Lines that convert, compare or print by hand.
BY_HAND = (
    ("words and bytes taken apart or put together", r"% 256\b|\* 0x100\b|\* 0x1_0000_0000|[%/] 0x1_0000_0000|0x1_0000_0000\)|_F32"),
    ("the lesser or larger of two", r"if (\w+) <=? (\w+) \{ (\1|\2) \} else \{ (\1|\2) \}"),
    ("a place written with what another place held", r"^\s*\w+\[[^]]+\] = \w+\[[^]]+\];"),
    ("words or bytes compared one by one", r"\[\w+\] != \w+\[\w+\]|\[\d\] == \w+\[\d\]"),
    ("a constructor by hand", r"fn (new|last_of|replied|\w*refused|not_found|malformed|no_\w+|written)\("),
    ("a printing helper", r"fn print_\w+"),
    ("true or false by a match", r"=> (true|false),"),
)
Fn = namedtuple("Fn", "crate file line name params ret contracts body start")


def read(pattern):
    """Each file that matches, with its text."""
    if ARGS:
        names = subprocess.run(["git", "-C", TOP, "ls-tree", "-r", "--name-only", ARGS[0], "crates"], capture_output=True, text=True, check=True).stdout.split("\n")
        for name in names:
            if re.fullmatch(pattern, name):
                yield name, subprocess.run(["git", "-C", TOP, "show", f"{ARGS[0]}:{name}"], capture_output=True, text=True, check=True).stdout
    else:
        for path in sorted(TOP.glob("crates/**/*.*")):
            name = str(path.relative_to(TOP))
            if re.fullmatch(pattern, name):
                yield name, path.read_text()


def block(text, at, pair="{}"):
    """The place behind the bracket that closes the one at a place."""
    depth = 0
    for i in range(at, len(text)):
        depth += (text[i] == pair[0]) - (text[i] == pair[1])
        if depth == 0:
            return i + 1
    return len(text)


def functions(file, text):
    plain = re.sub(r"//[^\n]*", lambda m: " " * len(m[0]), text)
    for m in re.finditer(r"\bfn (\w+)(<[^(]*>)?\(", plain):
        end = block(plain, m.end() - 1, "()")
        params = re.findall(r"(\w+): ([^,()]+)", plain[m.end():end - 1])
        at, contracts = end, []
        while True:
            clause = re.compile(r"[\s)]*(?:->\s*[^{]*?)?\s*(requires|ensures)(?: \w+)? (?=\{)").match(plain, at)
            if not clause:
                break
            if at == end:
                head = plain[end:clause.start(1)]
            close = block(plain, clause.end())
            contracts.append((clause[1], plain[clause.end() + 1:close - 1]))
            at = close
        start = plain.find("{", at)
        if not contracts:
            head = plain[end:start]
        if start < 0:
            continue
        arrow = re.search(r"->\s*(.*)", head, re.S)
        yield Fn(file.split("/")[1], file, plain.count("\n", 0, m.start()) + 1, m[1], [(n, t.strip()) for n, t in params],
                 arrow[1].strip() if arrow else "", contracts, plain[start:block(plain, start)], plain.count("\n", 0, start) + 1)


SOURCES = {name: text for name, text in read(r"crates/\w+/src/.*\.rt")}
PLAIN = {name: re.sub(r"//[^\n]*", lambda m: " " * len(m[0]), text) for name, text in SOURCES.items()}
FNS = [f for name, text in SOURCES.items() for f in functions(name, text)]
TYPES = [(name, text.count("\n", 0, m.start()) + 1, m[1], m[2], text[m.end():block(text, m.end() - 1) - 1])
         for name, text in PLAIN.items() for m in re.finditer(r"\b(struct|enum) (\w+)(?:<[^>]*>)? \{", text)]


def at(f):
    return f"{f.file}:{f.line} {f.name}"


def lines(pattern):
    return [f"{name}:{n} {line.strip()}" for name, text in PLAIN.items() for n, line in enumerate(text.split("\n"), 1)
            if re.search(pattern, line) and not re.match(r"\s*(requires|ensures|×)", line)]


def said(name, places, part=False):
    """A count and, where asked for, its places. A part's places stand in the count before it, and are not added up."""
    print(f"  {len(places):4}  {name}")
    TOTAL.append(0 if part else len(places))
    if LIST:
        for place in places:
            print(f"          {place}")


def split(text, sep):
    """The parts between separators that stand in no bracket."""
    depth, parts, last = 0, [], 0
    for i, c in enumerate(text):
        depth += (c in "({[") - (c in ")}]")
        if c == sep and depth == 0:
            parts.append(text[last:i])
            last = i + 1
    return parts + [text[last:]]


def facts(text):
    """The facts of a clause that are joined by ×, brackets around one gone."""
    text = " ".join(text.split())
    while text.startswith("(") and block(text, 0, "()") == len(text):
        text = text[1:-1].strip()
    parts = split(text, "×")
    if len(parts) == 1:
        return [text]
    return [fact for part in parts for fact in facts(part)]


def shape(body):
    words = re.findall(r"b'.'|\w+|[^\w\s]", body)
    keep = set("if else while for in loop match return let mut break as true false Some None Ok Err".split())
    return [w if w in keep or not w[0].isalnum() else "x" for w in words]


def point_1():
    print("1 own Option and Result, flags, numbers")
    variants = {(f, n, name): [v.strip() for v in split(body, ",") if v.strip()] for f, n, kind, name, body in TYPES if kind == "enum"}
    said("enums of which one variant alone has no value, or no more than a number: Option or Result",
         [f"{f}:{n} {name}" for (f, n, name), vs in variants.items() if len(vs) > 1
          and (sum(v.isidentifier() for v in vs) or len(vs) == 2 and sum(v.endswith("(u32)") for v in vs)) == 1])
    said("structs with a bool beside other fields", [f"{f}:{n} {name}" for f, n, kind, name, body in TYPES if kind == "struct" and re.search(r": bool\b", body)])
    said("functions that return a refusal's number, 0 where there is none (outside the C interface)",
         [at(f) for f in FNS if f.ret == "u32" and f.crate not in C and (re.search("refusal", f.name) or any(re.search("refusal|unless", c) for k, c in f.contracts if k == "ensures"))])
    replies = [name for f, n, kind, name, body in TYPES if kind == "struct" and re.search(r"\brefusal: u32", body)]
    said("functions that return a reply record whose refusal 0 means accepted, or that there is no fault (outside the C interface)",
         [at(f) + f" -> {f.ret}" for f in FNS if f.ret in replies and f.crate not in C])
    said("functions that return a number of the range for none", [at(f) for f in FNS if f"{f.crate}::{f.name}" in SENTINELS and not re.search("Option|Result", f.ret)])
    said("constants that number a refusal", [p for p in lines(r"^pub const [A-Z_]+: u32") if "_rules/" in p])
    said("fields `refusal: u32`", [f"{f}:{n} {name}" for f, n, kind, name, body in TYPES if re.search(r"\brefusal: u32", body)])
    said("parameters `refusal: u32`", [at(f) for f in FNS if ("refusal", "u32") in f.params and f.crate not in C])
    said("tests of a refusal's number", [p for p in lines(r"refusal [!=]= (0|[A-Z_]+)\b")])
    number = r"(?:u8|u16|u32|u64|usize)"
    said("fields and constants of metric, mark, kind, form, name or letter numbers",
         [f"{f}:{n} {name}" for f, n, kind, name, body in TYPES if kind == "struct" and re.search(rf"\b(metric|mark|kind|form): {number}", body)]
         + [f"{f}:{n} {name}" for f, n, kind, name, body in TYPES if kind == "struct" and re.fullmatch(rf"\s*pub number: {number},?\s*", body)])
    said("functions with a parameter that is such a number", [at(f) for f in FNS if f.crate not in C and any(re.fullmatch(rf"(metric|kind|form|letter): {number}|mark: u32", f"{n}: {t}") for n, t in f.params)])
    said("tests of such a number", lines(r"(\b(kind|form|metric|letter|mark|number)|\[METRIC_AT\]|mark_of\(row\)|\.metric) (==|<=|<|!=) (\d|b'|Form::|[A-Z_]{4,})|Form::[A-Z_]+ < |[^<]\b1 < mark\b"))


def point_2():
    print("2 twins")
    groups = defaultdict(list)
    for f in FNS:
        if f.crate not in C and len(shape(f.body)) >= 9:
            groups[" ".join(shape(f.body))].append(f)
    alike = [fs for fs in groups.values() if len(fs) > 1]
    said(f"functions whose body another has but for names and numbers, in {len(alike)} groups", [at(f) + (" ~ " + at(fs[0]) if f != fs[0] else "") for fs in alike for f in fs])
    near, big = [], [(f, shape(f.body)) for f in FNS if f.crate not in C and len(shape(f.body)) >= 40]
    for (f, a), (g, b) in combinations(big, 2):
        if a != b and min(len(a), len(b)) / max(len(a), len(b)) > 0.75:
            m = difflib.SequenceMatcher(None, a, b, autojunk=False)
            if m.quick_ratio() > 0.88 and m.ratio() > 0.86:
                near.append(f"{at(f)} ~ {at(g)}")
    said("pairs of functions of 40 words or more that are alike to 86 in a hundred", near)
    names = defaultdict(list)
    for f in FNS:
        if f.crate not in C:
            names[f.name].append(f)
    said("functions that share their name with one of another crate (methods and `main` apart)",
         [at(f) for n, fs in sorted(names.items()) for f in fs if len({g.crate for g in fs}) > 1 and n not in ("new", "main")])
    fields = defaultdict(list)
    for f, n, kind, name, body in TYPES:
        if kind == "struct":
            fields[" ".join(re.findall(r": ([^,]+)", body))].append(f"{f}:{n} {name}")
    said("structs whose fields have the types of another's", [p for ps in fields.values() if len(ps) > 1 for p in ps])


def point_3():
    print("3 loops")
    loops = []
    for f in FNS:
        for m in re.finditer(r"\bwhile (.*?) \{", f.body, re.S):
            body = f.body[m.end() - 1:block(f.body, m.end() - 1)]
            hand = any(re.search(rf"\b{v} [+-]= 1\b", body) for v in set(re.findall(r"[a-z_]\w*", m[1])))
            loops.append((hand, f"{f.file}:{f.start + f.body.count(chr(10), 0, m.start())}", f"{f.name}: while {m[1]}"))
    said("`while` loops", [f"{p} {t}" for _, p, t in loops])
    said("of them with an index in the test that the body counts by one", [f"{p} {t}" for hand, p, t in loops if hand], part=True)
    said("`for` loops over numbers that the body indexes by", [at(f) + f": for {m[1]} in {m[2]}" for f in FNS for m in re.finditer(r"\bfor (\w+) in ([^{]*\.\.[^{]*) \{", f.body)
                                                               if re.search(rf"\[{m[1]}\b", f.body[m.end():block(f.body, m.end() - 1)])])


def point_4():
    print("4 equality, order, copies, conversions, printing by hand")
    for name, pattern in BY_HAND:
        said(name, [p for p in lines(pattern) if f"crates/{C[1]}/" not in p])
    said("functions that compare two values for order", [at(f) for f in FNS if re.search(r"_le$", f.name)])
    said("types with derives, none of them more than Clone, Copy or Drop", [p for p in lines(r"#\[derive\(") if not re.search("PartialEq|Ord|Default|Debug", p)], part=True)


def point_5():
    print("5 facts and parameters that travel together")
    stands = defaultdict(set)
    for f in FNS:
        if f.crate not in C:
            for kind, clause in f.contracts:
                for fact in facts(clause) if kind == "requires" else []:
                    stands[re.sub(r"\.(now|old)\b", "", fact)].add(at(f))
    many = sorted(((len(p), fact) for fact, p in stands.items() if len(p) > 2), reverse=True)
    said("facts that three or more functions require", [f"{n} functions: {fact}" for n, fact in many])
    ensured = defaultdict(set)
    for f in FNS:
        if f.crate not in C:
            for kind, clause in f.contracts:
                for fact in facts(clause) if kind == "ensures" else []:
                    ensured[fact].add(at(f))
    said("facts that three or more functions ensure in the same words", [f"{len(p)} functions: {fact}" for fact, p in sorted(ensured.items(), key=lambda x: -len(x[1])) if len(p) > 2])
    groups = defaultdict(set)
    for f in FNS:
        params = sorted({(n, t) for n, t in f.params if n != "rt"})
        for size in range(3, 7):
            for some in combinations(params, size):
                if f.crate not in C:
                    groups[some].add(at(f))
    held = {g: p for g, p in groups.items() if len(p) > 2}
    largest = [g for g in held if not any(set(g) < set(h) and held[h] == held[g] for h in held)]
    said("groups of three or more parameters of one name and type in three or more functions",
         [f"{len(held[g])} functions: " + ", ".join(f"{n}: {t}" for n, t in g) for g in sorted(largest, key=lambda g: -len(held[g]))])


def point_6():
    print("6 buffers with a length or a place beside them, parallel arrays")
    beside = "n found count end from first at length used part start taken mid limit rows".split()
    said("functions with a slice or an array and a number of its entries or a place in it beside",
         [at(f) + " " + " ".join(n for n, t in f.params if t == "usize" and n in beside) for f in FNS if f.crate not in C and any("[" in t for _, t in f.params)
          and any(t == "usize" and n in beside for n, t in f.params)])
    said("structs with a number of entries, or a place", [f"{f}:{n} {name}" for f, n, kind, name, body in TYPES if kind == "struct" and re.search(r"\b(length|at|first|count|end|from|hits): usize", body)])
    arrays = defaultdict(list)
    for name, text in PLAIN.items():
        for m in re.finditer(r"pub const (\w+): \[\w+; \d+\]", text):
            arrays[name].append(m[1])
    said("arrays of constants that stand one beside the other in a file", [f"{f} {a}" for f, names in arrays.items() if len(names) > 1 for a in names])


def point_7():
    print("7 switches on which step to run, tables of functions")
    said("functions that choose what to call by a kind, a form or a letter", [at(f) for f in FNS if len(re.findall(r"\b(kind|form|letter) (==|<=) ", f.body)) > 0])
    walk = r"while \w+ <= (t|last)\b|while \w+ < buckets|while 0 < (k|bucket)\b|while i < k\b|for (k|bucket) in \(?0\.\.[a-z(]"
    said("walks over the buckets of a table or an image, each with its own step in the loop", [at(f) for f in FNS if re.search(walk, f.body)])
    said("function pointers, tables of functions, dyn", lines(r"\bdyn\b|: fn\(|&fn\("))


def point_8():
    print("8 proofs")
    proofs = {name: text for name, text in read(r"crates/\w+/proofs/.*\.antt")}
    answers, alone, parts, said_texts = 0, [], 0, []
    whole = re.compile(r"^pub ([\w-]+)((?:\.[\w-]+)*) : goal[^\n]*\n(?:unfolding [^\n]*\n)?\1[^\n]*? =((?:[^\n]*\n?)(?:[ \t)][^\n]*\n?|\n(?=[ \t)]))*)", re.M)
    for name, text in proofs.items():
        if name.endswith("Answers.antt"):
            for m in whole.finditer(text):
                answers += 1
                said_text = " ".join(m[3].split())
                if said_text == "search rules":
                    alone.append(f"{name}:{text.count(chr(10), 0, m.start()) + 1} {m[1]}")
                if len(said_text) >= 40:
                    said_texts.append((f"{name}:{text.count(chr(10), 0, m.start()) + 1} {m[1]}", said_text))
                parts += len(re.findall(r"\bsearch rules\b", said_text))
    print(f"  {answers:4}  answers in {sum(n.endswith('Answers.antt') for n in proofs)} files, {sum(n.endswith('Invariants.antt') for n in proofs)} files of invariants,"
          f" {sum(n.count('/') == 3 for n in proofs)} files of lemmas of {len({n.split('/')[1] for n in proofs})} crates")
    said("answers whose whole text is `search rules`", alone)
    print(f"  {parts:4}  times `search rules` in answers")
    print(f"  {sum(len(re.findall(r'^abbrev pub decreases-', t, re.M)) for t in proofs.values()):4}  measures of loops and of functions that call themselves")
    said("parts of invariants that say that what is lent keeps its length, as a loop knows by itself",
         [f"{name}:{n} {m[0]}" for name, text in proofs.items() for n, line in enumerate(text.split("\n"), 1) for m in re.finditer(r"length l\.(\w+) ≡ length l\.(initial|fn)\.\1\b", line)])
    texts = defaultdict(list)
    for where, text in said_texts:
        texts[text].append(where)
    said("answers of 40 letters or more that another gives word for word", [p for ps in texts.values() if len(ps) > 1 for p in ps])
    lemmas = defaultdict(list)
    for name, text in proofs.items():
        for m in re.finditer(r"^(?:pub )?([a-z][\w'-]*) :((?:[^\n]*\n)(?:[ \t][^\n]*\n)*)", text, re.M):
            if "goal" not in m[2] and re.search("→.*≡|→.*→", " ".join(m[2].split())):
                lemmas[" ".join(m[2].split())].append(f"{name}:{text.count(chr(10), 0, m.start()) + 1} {m[1]}")
    said("lemmas whose statement another has word for word", [p for ps in lemmas.values() if len(ps) > 1 for p in ps])


for point in (point_1, point_2, point_3, point_4, point_5, point_6, point_7, point_8):
    TOTAL.clear()
    point()
    print(f"  {sum(TOTAL):4}  in all")
