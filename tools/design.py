"""Counts, in the .rt files below a folder, the places that docs/DESIGN-PASS.md speaks of.

    python3 tools/design.py [FOLDER] [--list]

FOLDER is the repository's top, here by default; for an earlier commit, a worktree of it. With --list each place is
named, as crate::function.
"""

import glob
import os
import re
import sys

TYPES = r"\b(u8|u16|u32|u64|usize|f64|Index)\b"
NUMBER = r"\b(0x[0-9A-F_]+|\d[\d_]*(\.\d+)?)\b"
SHAPES = r"(plain|shared|by_row|row|lower|upper|structure|solve|indices|index|u32s?|f64s?|Lower|Upper|Plain|Shared|ByRow)"
CAST = r"\bas (u8|u16|u32|u64|usize|f64|Index)\b"


def sources(top):
    for path in sorted(glob.glob(f"{top}/crates/*/src/*.rt")):
        text = open(path).read().split("#[cfg(test)]")[0]
        yield path.split("/crates/")[1].split("/")[0], text


def functions(text):
    """The functions of a file: name, signature with its clauses, body."""
    found = re.finditer(r"^( *)(?:pub )?(?:const )?fn (\w+)(.*?)^\1\}$", text, re.M | re.S)
    for m in found:
        head, brace, body = m.group(3).partition("\n" + m.group(1) + "{")
        if not brace:
            head, _, body = m.group(3).partition("{")
        yield m.group(2), head, body


def parameters(head):
    inside = head[head.index("(") + 1 :]
    depth, at = 1, 0
    for at, c in enumerate(inside):
        depth += c in "(<["
        depth -= c in ")>]" and inside[at - 1] != "-"
        if depth == 0:
            break
    return [p.strip() for p in re.split(r",\s*(?![^\[(<]*[\])>])", inside[:at]) if p.strip()]


def shape(name, head, body):
    """A body without the words by which twins differ."""
    text = re.sub(r"//.*", "", body)
    text = re.sub(TYPES, "T", re.sub(NUMBER, "N", text))
    text = re.sub(r"(?<![a-zA-Z])" + SHAPES + r"(?![a-zA-Z])", "S", text)
    return re.sub(r"\s+", " ", text).strip()


def main():
    words = [w for w in sys.argv[1:] if not w.startswith("--")]
    top = words[0] if words else os.path.dirname(os.path.dirname(os.path.abspath(__file__)))
    places = {}

    def note(point, where):
        places.setdefault(point, []).append(where)

    shapes, clauses = {}, {}
    for crate, text in sources(top):
        for m in re.finditer(r"^ *(?:pub )?enum (\w+)[^{]*\{(.*?)^\}", text, re.M | re.S):
            cases = re.findall(r"^ +([A-Z]\w*)(\(.*\))?,", m.group(2), re.M)
            full = [c for c in cases if c[1]]
            kinds = len(cases) <= 3 and full and len(cases) > 1
            note("1 enums shaped as Option or Result" if kinds else "  enums of kinds", f"{crate}::{m.group(1)}")
        for name, head, body in functions(text):
            here = f"{crate}::{name}"
            for m in re.finditer(r"(?:if let|let) [\w:]+\(?\w*\)? = \w+ (?:else )?\{\s*return [\w:]+\((?:q|[\w:]+)\);", body):
                if re.search(r"(Stop|Err|Refused|Unshaped)\((q)\)", m.group(0)):
                    note("1 refusals passed on by hand", here)
            for m in re.finditer(r"if (?:(?:stages::)?(?:stops|refuses)\(\w+\)|\w+\.is_err\(\)) \{\s*return ", body):
                note("1 refusals passed on by hand", here)
            for m in re.finditer(r"(?:[\w:]+)?(?:Stop|Err|Refused|Unshaped)\(q\) => (?:return )?[\w:]+\(q\)", body):
                note("1 refusals passed on by hand", here)
            if len(re.findall(r"\S", body)) > 30:
                shapes.setdefault(shape(name, head, body), []).append(here)
            for _ in re.finditer(r"^ *(while|loop) ", body, re.M):
                note("3 while loops", here)
            if re.search(r"^\s*(let \w+ = self;\s*)?match [\w.]+ \{(\s*[\w:]+(\(.*?\))? => [\d\"a-z_.]+,)+\s*\}\s*$", body, re.S):
                note("4 conversions by match", here)
            for _ in re.finditer(CAST, body):
                note("4 casts by as", here)
            if len(parameters(head)) > 7:
                note("5 functions of more than seven parameters", here)
            for clause in re.findall(r"(?:requires|ensures)[^{]*\{(.*)\}", head):
                for fact in clause.split(" × "):
                    clauses.setdefault(re.sub(r"\s+", " ", fact.strip(" ()")), []).append(here)
            if re.search(r"&mut \[u8\],\s*at: usize", head):
                note("6 a buffer and how far it is written, apart", here)
            for m in re.finditer(r"match (form|way|side) \{", body):
                note("7 switches on form, way or side", here)
    for twins in shapes.values():
        if len(twins) > 1:
            for it in twins:
                note("2 functions alike but for a type, a size or a constant", it)
    for fact, where in clauses.items():
        if len(where) > 2 and len(fact) > 12:
            note("5 facts in three or more contracts", fact)
    for path in glob.glob(f"{top}/crates/*/proofs/**/Answers.antt", recursive=True):
        n = len(re.findall(r"^(?:pub )?[\w\-]+ : goal\.", open(path).read(), re.M))
        places.setdefault("8 answers to goals", []).extend([path.split("/crates/")[1]] * n)
    for point in sorted(places, key=lambda p: p.strip()):
        print(f"{len(places[point]):5} {point}")
        if "--list" in sys.argv:
            for it in sorted(set(places[point])):
                print(f"      {places[point].count(it)} {it}")


main()
