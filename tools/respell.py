#!/usr/bin/env python3
"""Spells the repository's own definitions and lemmas as today's Rattle does.

usage: python3 tools/respell.py [--list]      at the top of a checkout, once, after port.py

Functions, lemmas, fields and constructors become snake case, types and facts
upper camel case. Names that come from Rust source, and names that the prover
makes (a goal `pub x : goal.x`), keep their spelling, and so do strings and
comments. --list prints the table and writes
nothing.
"""
import pathlib
import re
import sys

NAME = r"[A-Za-z][A-Za-z0-9_'?]*(?:-[A-Za-z0-9_'?]+)*"
WORDS = r"(?:(?:abbrev|pub|unfoldable) )*"
TOP = re.compile(r"^" + WORDS + r"(record |data )?(" + NAME + r")(?= |$)(.*)$")
INNER = re.compile(r"^ +" + WORDS + r"(?:record |data )?((?:" + NAME + r" )+): (.*)$")
ALIAS = re.compile(r" as (" + NAME + r")(?=[,}])")
TOKEN = re.compile(r"""(?x)
    "(?:[^"\\]|\\.)*"            # a string
  | b?'(?:[^'\\]|\\.)'           # a character
  | [A-Za-z_◌][A-Za-z0-9_'?]*(?:-[A-Za-z0-9_'?]+)*
""")
# Local lemmas that would fall together with the definition that they speak of.
CHOSEN = {
    "crates/fs/proofs/Rest.antt": {"is-directory": "is_directory_node"},
    "crates/fs/proofs/Traces.antt": {"is-file": "is_file_marker"},
}


def respelled(name):
    parts = name.split("-")
    if name[0].isupper():
        return "".join(p[0].upper() + p[1:] for p in parts)
    joined = "_".join(parts)
    return re.sub(r"(?<=[a-z0-9])([A-Z])", lambda m: "_" + m.group(1).lower(), joined)


def declared(path):
    """The names that the file declares, but for the answers to goals."""
    answers = path.name in ("Answers.antt", "Invariants.antt", "Proof.antt")
    for line in path.read_text().splitlines():
        top = TOP.match(line)
        if top and (top.group(1) or re.match(r" :( |$)", top.group(3))):
            name, rest = top.group(2), top.group(3)
            if answers and re.search(r": [a-z]+\." + re.escape(name) + r"$", rest):
                continue
            yield name
        inner = INNER.match(line)
        if inner:
            yield from inner.group(1).split()


def aliases(path):
    """The names that the file gives to what it imports."""
    for line in path.read_text().splitlines():
        if re.match(r"(ghost )?use ", line):
            yield from ALIAS.findall(line)


def table(root):
    names = set()
    for path in sorted(root.glob("crates/**/*.antt")):
        if "out" not in path.parts:
            names.update(declared(path))
            names.update(aliases(path))
    for path in sorted(root.glob("crates/*/src/**/*.rt")):
        names.update(aliases(path))
    return {n: respelled(n) for n in names if respelled(n) != n}


def turn(text, names, comment):
    """The text with its names respelled; a comment begins with `comment`."""
    lines = []
    for line in text.split("\n"):
        code, mark, said = line, "", ""
        at = line.find(comment)
        if at >= 0 and line.count('"', 0, at) % 2 == 0:
            code, mark, said = line[:at], comment, line[at + len(comment):]
        code = TOKEN.sub(lambda m: names.get(m.group(0), m.group(0)), code)
        lines.append(code + mark + said)
    return "\n".join(lines)


def main():
    root = pathlib.Path(".")
    names = table(root)
    if "--list" in sys.argv:
        for old in sorted(names):
            print(old, names[old])
        return
    for path in sorted(root.glob("crates/**/*")):
        if path.suffix not in (".antt", ".rt", ".edit") or "out" in path.parts:
            continue
        text = path.read_text()
        chosen = {**names, **CHOSEN.get(path.as_posix(), {})}
        new = turn(text, chosen, "--" if path.suffix == ".antt" else "//")
        if new != text:
            path.write_text(new)


if __name__ == "__main__":
    main()
