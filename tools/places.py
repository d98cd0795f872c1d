#!/usr/bin/env python3
"""Lists places in crates/*/src where a form might be plainer, by their look alone: a row is a place to
judge, not a verdict. `python3 tools/places.py [POINT]`, from the top of the repository."""
import collections
import glob
import re
import sys

FUNCTION = re.compile(r"^( *)((?:pub(?:\([a-z]+\))? )?fn \w+.*?)(?=\n *(?:\{|where|requires|ensures)| \{\n|;\n|\n\n)", re.S | re.M)
CLAUSE = re.compile(r"^ *(?:ensures|requires)\*? ?(?:\w+ )?\{ (.*?) \};?$", re.M)
NAME = re.compile(r"fn (\w+)")


def sources():
    for path in sorted(glob.glob("crates/*/src/**/*.rt", recursive=True)):
        with open(path) as file:
            yield path, file.read()


def lines_like(*patterns):
    for path, text in sources():
        for number, line in enumerate(text.splitlines(), 1):
            if any(re.search(pattern, line) for pattern in patterns):
                yield f"{path}:{number}: {line.strip()}"


def signatures():
    for path, text in sources():
        for found in FUNCTION.finditer(text):
            yield path, re.sub(r"\s+", " ", found.group(2))


# 1: own enums; a bool beside a change; numbers for cases; an Option or Result taken apart by hand.
def enums():
    yield from lines_like(r"\benum \w+")


def flags():
    for path, signature in signatures():
        if "&mut" in signature and signature.endswith("-> bool"):
            yield f"{path}: {signature}"


def numbers():
    yield from lines_like(r"\w+::\w+ => \d+,$", r"^ *\(?(_, )?\d+\)? => .*\w+::\w+", r"const \w+: u8 = \d+;")


def by_hand():
    yield from lines_like(r"^ *(None => (None|false|Err)|Ok\(\(\)\) => Ok|Err\(_\) => (None|Err)|Err\(\w+\) => (return )?Err)", r"\bNone => (0|\w+),$")


# 2: one name for a function, or the same fields of a struct, in two crates.
def twins():
    crates = collections.defaultdict(set)
    for path, text in sources():
        if "/tests.rt" in path or "_tests/" in path:
            continue
        crate = path.split("/")[1]
        for found in re.finditer(r"^(?:pub(?:\([a-z]+\))? )?fn (\w+)", text, re.M):
            crates["fn " + found.group(1)].add(crate)
        for found in re.finditer(r"^pub (?:struct|enum) (\w+)[^{;]*\{(.*?)^\}", text, re.M | re.S):
            body = re.sub(r" *(//|ghost ).*|pub |,| = \d+", "", found.group(2))
            crates["type " + " ".join(body.split())].add(crate + "::" + found.group(1))
    for what, where in sorted(crates.items()):
        if len(where) > 1 and what != "fn main":
            yield f"{what}: {', '.join(sorted(where))}"


# 3: loops over a range, and `while`.
def loops():
    yield from lines_like(r"^ *(while |loop |for .* in [^{]*\.\.)")


# 4: impls that a derive or the library writes, and functions that convert or compare.
def conversions():
    yield from lines_like(r"^ *impl(<[^>]*>)? (PartialEq|PartialOrd|Ord|Clone|From<.*>|TryFrom<.*>|fmt::\w+|Default) for", r"fn (number|number_in|from_number|\w*fault_of|precedes|beats|plain\w*|is_below)\b")


# 5: a clause in three contracts or more; two parameters that stand together in three or more.
def clauses():
    count = collections.Counter(c for _, text in sources() for c in CLAUSE.findall(text))
    for clause, n in count.most_common():
        if n > 2:
            yield f"{n} x {clause}"


def companions():
    count = collections.Counter()
    for _, signature in signatures():
        inside = signature.split(" -> ")[0].split("(", 1)[1].rsplit(")", 1)[0]
        taken = sorted(p.strip() for p in inside.split(",") if ":" in p and "self" not in p)
        count.update((a, b) for i, a in enumerate(taken) for b in taken[i + 1 :])
    for pair, n in count.most_common():
        if n > 2:
            yield f"{n} x {', '.join(pair)}"


# 6: a count beside an array or a lent slice; a search by halving.
def buffers():
    yield from lines_like(r"^ *(pub )?(len|filled|turn|held|capacity|count): usize,", r"\(high - low\) / 2")


# 7: a match over calls, changes or steps, and function pointers.
def steps():
    yield from lines_like(r"match (call|change|step|op)\b", r": fn\(", r"&dyn |Box<dyn ")


POINTS = {
    "1": [enums, flags, numbers, by_hand],
    "2": [twins],
    "3": [loops],
    "4": [conversions],
    "5": [clauses, companions],
    "6": [buffers],
    "7": [steps],
}


def main():
    for point in sys.argv[1:] or POINTS:
        for look in POINTS[point]:
            rows = list(look())
            print(f"point {point}, {look.__name__}: {len(rows)}")
            for row in rows:
                print(f"    {row}")


main()
