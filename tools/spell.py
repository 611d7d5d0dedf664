#!/usr/bin/env python3
"""Brings the repository's own definitions and lemmas to snake case, after the toolchain's port.py: spell.py, once, at the top.

A word in camel case that begins with a small letter, alone or as a part of a name that dashes join, becomes snake case, in crates/ (must-fail edits
among them), README.md and docs/. Words that a file takes from a library of the toolchain keep their spelling, and so do types, facts and modules.
Three lemmas whose names would then fall together with a definition get another name first. It prints what it renamed.
"""
import os
import re

NAME = re.compile(r"(?<![\w'])[A-Za-zα-ωΑ-Ωℕℤ_][\w'ℕℤ₀-₉≡≢≤-]*")
CAMEL = re.compile(r"^[a-z][a-z0-9_]*[A-Z]\w*$")
KEPT = re.compile(r"_[A-Z]|^0x")
OWN = {"getD": "get_or", "withYs": "with_ys"}

# lemmas that would be named as a definition, by the file that states each
LEMMAS = {
    ("outcome", "specs/Placed.antt", "list_at"): "list_at-is",
    ("factor", "specs/TurnLaws.antt", "lower_in"): "lower_in-below",
    ("agreement", "proofs/Agree.antt", "by_form"): "by_form-cases",
}


def texts():
    for folder, folders, files in os.walk("crates"):
        folders[:] = sorted(it for it in folders if it != "out")
        for file in sorted(files):
            if file.endswith((".antt", ".rt", ".edit")):
                yield os.path.join(folder, file)


def read(path):
    with open(path, encoding="utf-8") as f:
        return f.read()


def write(path, text):
    with open(path, "w", encoding="utf-8") as f:
        f.write(text)


def snake(part):
    if part in OWN:
        return OWN[part]
    if not CAMEL.match(part) or KEPT.search(part):
        return part
    return re.sub(r"([a-z0-9])([A-Z])", lambda m: m.group(1) + "_" + m.group(2).lower(), part)


def library_words(text):
    """The words that a text imports from a library that is not the repository's."""
    words = set()
    for m in re.finditer(r"^(?:pub |ghost )*use ([\w.+-]+)\.\{([^}]*)\}", text, re.M):
        own = re.match(r"Rattle\.(\w+)\.", m.group(1))
        if not own or own.group(1) == "std" or not os.path.isdir(f"crates/{own.group(1)}"):
            words |= {it.strip().split(" as ")[0] for it in m.group(2).split(",")}
    return words


def rename_lemmas():
    for (crate, file, old), new in LEMMAS.items():
        stated = f"Rattle.{crate}." + file[:-5].replace("/", ".")
        for path in texts():
            text = read(path)
            cites = re.search(re.escape(stated) + r"\.\{[^}]*(?<![\w-])" + old + r"(?![\w-])", text)
            if path != f"crates/{crate}/{file}" and not cites:
                continue
            # not a step's name, a path or a call in code
            write(path, re.sub(r"(?<![\w.:-])" + old + r"(?![\w-])(?!\.ensures)", new, text))


def main():
    rename_lemmas()
    foreign = {}
    renamed = {}
    for path in texts():
        foreign[path] = library_words(read(path))
    words = set().union(*foreign.values())
    for path in texts():
        text = read(path)

        def turn(m):
            name = m.group(0)
            if name in words:
                return name
            new = "-".join(snake(part) for part in name.split("-"))
            if new != name:
                renamed[name] = new
            return new

        new = NAME.sub(turn, text)
        if new != text:
            write(path, new)
    pages = ["README.md"] + [f"docs/{it}" for it in sorted(os.listdir("docs")) if it.endswith(".md")]
    for path in pages:
        text = read(path)
        new = NAME.sub(lambda m: renamed.get(m.group(0), m.group(0)), text)
        if new != text:
            write(path, new)
    fallen = {}
    for old, new in renamed.items():
        fallen.setdefault(new, []).append(old)
    for old in sorted(renamed):
        print(old, renamed[old])
    for new, olds in sorted(fallen.items()):
        if len(olds) > 1:
            print("TOGETHER:", new, *olds)


main()
