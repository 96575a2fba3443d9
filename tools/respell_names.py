#!/usr/bin/env python3
"""Brings the repository's own definitions and lemmas to today's spelling: words in snake case.

usage: python3 tools/respell_names.py          in the repository, once, after the kit's own script

The table tools/respelled_names.tsv has a row for each name: old, a tab, new, and perhaps a tab and the beginning of
a path below which alone the row holds. Whole words turn, in the code of .antt files, in the ghost code of .rt files,
in comments, and in code spans of README.md and docs/. Names that the check makes of a function's text (behind the
heads c, l, g and goal in the folders of proofs/) stay, and so does what stands in quotes.
"""
import os
import re

HERE = os.path.dirname(os.path.realpath(__file__))
ROOT = os.path.dirname(HERE)
WORD = re.compile(r"[A-Za-z_][A-Za-z0-9_']*(?:-[A-Za-z0-9_']+)*")
MADE = re.compile(r"(?:^|[^A-Za-z0-9_'\-.])(?:c|l|g|goal)\d*\.$")
CAMEL = re.compile(r"[a-z][a-z0-9_']*[A-Z][A-Za-z0-9_']*$")
QUOTED = re.compile(r'b?"(?:\\.|[^"\\\n])*"')
SPAN = re.compile(r"`[^`\n]+`")


def rows():
    with open(os.path.join(HERE, "respelled_names.tsv"), encoding="utf-8") as f:
        return [line.rstrip("\n").split("\t") for line in f if line.strip()]


def table(path):
    found = {}
    for row in rows():
        if len(row) == 2:
            found.setdefault(row[0], row[1])
        elif path.startswith(row[2]):
            found[row[0]] = row[1]
    return found


def turn(text, names, made, only_camel):
    """The text with each word of the table turned, outside quotes."""

    def word(m):
        old = m[0]
        if old not in names or (only_camel and not CAMEL.match(old)):
            return old
        if made and "-" in old and MADE.search(text[: m.start()][-40:]):
            return old
        return names[old]

    quotes = [m.span() for m in QUOTED.finditer(text)]
    inside = lambda at: any(a <= at < b for a, b in quotes)
    return WORD.sub(lambda m: m[0] if inside(m.start()) else word(m), text)


def code_and_comment(line, mark):
    at = re.search(r"(?:^|\s)" + re.escape(mark) + r"(?:\s|/|$)", line)
    return (line[: at.start()], line[at.start() :]) if at else (line, "")


def turn_line(line, kind, names, made):
    if kind == "md":
        return SPAN.sub(lambda m: turn(m[0], names, False, False), line)
    code, comment = code_and_comment(line, "--" if kind == "antt" else "//")
    ghost = kind == "antt" or line.startswith("ghost use")
    code = turn(code, names, made, not ghost)
    comment = SPAN.sub(lambda m: turn(m[0], names, False, False), turn(comment, names, False, True))
    return code + comment


def files():
    for top in ("crates", "docs"):
        for folder, dirs, names in os.walk(os.path.join(ROOT, top)):
            dirs[:] = sorted(d for d in dirs if d != "out")
            for name in sorted(names):
                if name.rsplit(".", 1)[-1] in ("antt", "rt", "md"):
                    yield os.path.relpath(os.path.join(folder, name), ROOT)
    yield "README.md"


def main():
    turned = 0
    for path in files():
        with open(os.path.join(ROOT, path), encoding="utf-8") as f:
            old = f.read()
        names = table(path)
        made = "/proofs/" in path and path.split("/proofs/")[1].count("/") > 0
        kind = path.rsplit(".", 1)[-1]
        new = "\n".join(turn_line(line, kind, names, made) for line in old.split("\n"))
        if new != old:
            turned += 1
            with open(os.path.join(ROOT, path), "w", encoding="utf-8") as f:
                f.write(new)
    print(f"{turned} files turned")


if __name__ == "__main__":
    main()
