#!/usr/bin/env python3
"""Gives this repository's own choice, `if◌then◌else◌`, the name `If◌then◌else◌`: the library has an operator of the old name.

usage: python3 tools/port_choice.py        at the top of the repository, once, after tools/port_names.py

Only definitions, proofs, clauses, imports and the edits of definitions change, and in them this one word.
"""
import os
import re

WORD = re.compile(r"(?<![A-Za-z0-9_'.◌-])if(?![A-Za-z0-9_'-])")


def files(*endings):
    for folder, dirs, names in os.walk("crates"):
        dirs[:] = sorted(d for d in dirs if d != "out")
        for name in sorted(names):
            if name.endswith(endings):
                yield os.path.join(folder, name)


def antt(text):
    lines = []
    for line in text.split("\n"):
        m = re.match(r"^(.*?)((?:^|(?<= ))--(?: .*)?)?$", line)
        lines.append(WORD.sub("If", m[1]) + (m[2] or "").replace("`if◌then◌else◌`", "`If◌then◌else◌`"))
    return "\n".join(lines)


def clauses(text):
    """In a .rt file: `ghost use` lines, and what stands between the braces of a clause."""
    out, at = [], 0
    text = re.sub(r"(?m)^ghost use .*$", lambda m: WORD.sub("If", m[0]), text)
    for m in re.finditer(r"\b(?:requires|ensures)(?: \w+)? \{", text):
        deep, end = 1, m.end()
        while deep:
            deep += (text[end] == "{") - (text[end] == "}")
            end += 1
        if m.start() >= at:
            out.append(text[at:m.end()] + WORD.sub("If", text[m.end():end]))
            at = end
    return "".join(out) + text[at:]


def edit(text):
    of_code, lines = True, []
    for line in text.split("\n"):
        if line.startswith("file: "):
            of_code = not line.endswith(".antt")
        lines.append(WORD.sub("If", line) if not of_code and re.match(r"(old|new): ", line) else line)
    return "\n".join(lines)


def main():
    turned = 0
    for path in list(files(".antt", ".rt", ".edit")):
        with open(path, encoding="utf-8") as f:
            text = f.read()
        after = antt(text) if path.endswith(".antt") else clauses(text) if path.endswith(".rt") else edit(text)
        if after != text:
            turned += 1
            with open(path, "w", encoding="utf-8") as f:
                f.write(after)
    print(f"port_choice: {turned} files turned")


if __name__ == "__main__":
    main()
