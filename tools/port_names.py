#!/usr/bin/env python3
"""Brings this repository's own definitions and lemmas to today's spelling, once, after the kit's port.py.

usage: python3 tools/port_names.py        at the top of the repository

Words are in snake case: `messageOf` becomes `message_of`, `then-case` becomes `then_case`. A dash stays where it joins two
names, as in `length-exactly`. Where two names would fall together in one file, the lemma gets `_lem`. It goes by text:
definitions, clauses, edits and comments change in spelling alone. In a `Proof.antt`, names that the prover makes stay.
"""
import collections
import os
import re

SIGNATURE = re.compile(r"^( *)((?:unfoldable |abbrev |pub )*)([^\s(){}:;,.λ→≡]+) :(?= )(.*)$")
USE = re.compile(r"^\s*(?:ghost |pub )?use ([^\s;{}]+?)(?:\.\{([^}]*)\})?(?: as (\S+?))?;?$")
TOKEN = re.compile(r"(?<![A-Za-z0-9_'·◌₀-₉-])[A-Za-z_][A-Za-z0-9_'₀-₉-]*")
STD = set("length take drop set map append reverse replicate get_or min max leb ltb eqb".split())
# Constructors that stand beside a definition of the same name, and laws named as the case that they speak of.
NAMED = {
    "after-bracket": "when_after_bracket", "after-esc": "when_after_esc", "after-intermediate": "when_after_intermediate",
    "no-field": "has_no_field",
}
CONTRACTS = {"promises": "CallContracts", "wrong": "OpenContracts"}
VARIABLES = """isUnprotected lentFull lentTyped lentLater lentThere outputLater marksAfter otherPage otherOutput afterSecond
marksOfSecond marksOfFirst marksLent charactersAfter""".split()
FIELDS = {"full_block": "by_full_block", "changed_block": "by_changed_block"}


def files(*endings):
    for folder, dirs, names in os.walk("crates"):
        dirs[:] = sorted(d for d in dirs if d != "out")
        for name in sorted(names):
            if name.endswith(endings):
                yield os.path.join(folder, name)


def read(path):
    with open(path, encoding="utf-8") as f:
        return f.read()


def is_walk(path):
    return path.endswith("/Proof.antt")


def module_of(path):
    parts = path[:-len(".antt")].split("/")
    return "Rattle." + ".".join(parts[1:])


def snake(name):
    if re.match(r"[a-z]", name):
        name = re.sub(r"(?<=[a-z0-9])([A-Z])", lambda m: "_" + m[1].lower(), name)
        name = re.sub(r"([A-Z])", lambda m: m[1].lower(), name)
    return name


class Defined:
    def __init__(self, path, name, indent, words, in_record):
        self.path, self.name, self.indent, self.words, self.in_record = path, name, indent, words, in_record

    def rank(self):
        """Which of two keeps its name: a definition before a lemma."""
        return ("/specs/" in self.path, bool(re.search(r"[A-Z]", self.name)), "abbrev" in self.words or "unfoldable" in self.words)


def definitions():
    found = collections.defaultdict(list)
    for path in files(".antt"):
        if is_walk(path):
            continue
        record = False
        for line in read(path).split("\n"):
            if re.match(r"^\S", line):
                record = bool(re.match(r"^(pub )?record ", line))
            m = SIGNATURE.match(line)
            if m and not m[3].startswith("--"):
                found[m[3]].append(Defined(path, m[3], len(m[1]), m[2], record and m[1] != ""))
    return found


def move_files():
    """The prover makes a module `specs.contracts` of each crate: files of that name get another one."""
    for crate, name in CONTRACTS.items():
        os.rename(f"crates/{crate}/specs/Contracts.antt", f"crates/{crate}/specs/{name}.antt")
        lib = f"crates/{crate}/specs/Lib.antt"
        text = read(lib).replace("pub mod Contracts\n", f"pub mod {name}\n")
        with open(lib, "w", encoding="utf-8") as f:
            f.write(text)
    for path in list(files(".antt", ".rt")):
        text = after = read(path)
        for crate, name in CONTRACTS.items():
            after = after.replace(f"Rattle.{crate}.specs.Contracts.", f"Rattle.{crate}.specs.{name}.")
        if after != text:
            with open(path, "w", encoding="utf-8") as f:
                f.write(after)


def main():
    move_files()
    found = definitions()
    modules = {module_of(p): p for p in files(".antt")}
    words = {snake(n) for n, ds in found.items() if any("/specs/" in d.path and d.indent == 0 for d in ds)} | STD

    def spelled(name, spec):
        parts = [snake(p) for p in name.split("-")]
        out = parts[0]
        for before, after in zip(parts, parts[1:]):
            out += ("-" if not spec and before in words and after in words else "_") + after
        return out

    new = {}
    for name, ds in found.items():
        new[name] = NAMED.get(name) or spelled(name, any("/specs/" in d.path for d in ds))
    # what each file sees: its own names and those that it takes from a file of this repository
    moved = {}
    for path in files(".antt"):
        if is_walk(path):
            continue
        seen = collections.defaultdict(list)
        for name, ds in found.items():
            for d in ds:
                if d.path == path and not d.in_record:
                    seen[new[name].replace("-", "_")].append(d)
        for line in read(path).split("\n"):
            m = USE.match(line)
            if m and m[2] and m[1] in modules:
                for it in m[2].split(","):
                    it = it.strip().split(" as ")[0]
                    for d in found.get(it, []):
                        if d.path == modules[m[1]]:
                            seen[new[it].replace("-", "_")].append(d)
        for together in seen.values():
            if len({d.name for d in together}) > 1:
                keep = max(together, key=Defined.rank)
                for d in together:
                    if d.name != keep.name:
                        moved[(d.path, d.name)] = new[keep.name].replace("-", "_") + "_lem"
    fields = {n for n, ds in found.items() if any(d.in_record for d in ds)}

    for path in files(".antt", ".rt", ".edit"):
        text = read(path)
        walk = is_walk(path)
        here = {}
        imported = set()
        for line in text.split("\n"):
            m = USE.match(line)
            if m and m[2]:
                for it in m[2].split(","):
                    it = it.strip().split(" as ")[0]
                    if m[1] in modules:
                        imported.add(it)
                        if (modules[m[1]], it) in moved:
                            here[it] = moved[(modules[m[1]], it)]
        if not walk:
            for (p, n), to in moved.items():
                if p == path:
                    here[n] = to

        def word(token, before):
            if token in here and not before.endswith("."):
                return here[token]
            if token in VARIABLES and not before.endswith("."):
                return snake(token)
            if token not in new:
                return token
            if path.endswith(".antt") and token in FIELDS and token in fields and (before.endswith(".") or (path in {d.path for d in found[token] if d.in_record})):
                return FIELDS[token]
            if walk:
                if before.endswith("."):
                    if token not in fields or re.search(r"(?<![\w'-])(c|before|turn)\.$", before):
                        return token
                elif token not in imported:
                    return token
            return new[token]

        def code(part):
            out, at = "", 0
            for m in TOKEN.finditer(part):
                out += part[at:m.start()]
                out += word(m[0], part[:m.start()])
                at = m.end()
            return out + part[at:]

        def remark(part):
            def quoted(m):
                return code(m[0])
            part = re.sub(r"`[^`]*`", quoted, part)
            return TOKEN.sub(lambda m: new.get(m[0], m[0]) if re.match(r"[a-z].*[A-Z]", m[0]) and "-" not in m[0] else m[0], part)

        lines = []
        for line in text.split("\n"):
            if path.endswith(".edit"):
                lines.append(code(line) if re.match(r"(old|new): ", line) else remark(line))
                continue
            m = re.match(r"^(.*?)((?:--|//).*)$", line)
            if m and (m[1].strip() == "" or m[1].endswith(" ")):
                lines.append(code(m[1]) + remark(m[2]))
            else:
                lines.append(code(line))
        after = "\n".join(lines)
        if after != text:
            with open(path, "w", encoding="utf-8") as f:
                f.write(after)

    def page(text):
        def quoted(m):
            return TOKEN.sub(lambda t: new.get(t[0], t[0]) if t[0] not in FIELDS else t[0], m[0])
        text = re.sub(r"`[^`\n]*`", quoted, text)
        return TOKEN.sub(lambda t: new.get(t[0], t[0]) if re.match(r"[a-z][a-z0-9]*[A-Z]", t[0]) and "-" not in t[0] else t[0], text)

    for folder in (".", "docs", "docs/landings"):
        for name in sorted(os.listdir(folder)):
            path = os.path.join(folder, name)
            if name.endswith(".md") and os.path.isfile(path):
                text = read(path)
                after = page(text)
                if after != text:
                    with open(path, "w", encoding="utf-8") as f:
                        f.write(after)
    for (path, name), to in sorted(moved.items()):
        print(f"together: {path}: {name} is now {to}")
    same = collections.defaultdict(set)
    for name, to in new.items():
        same[to].add(name)
    print(f"port_names: {sum(1 for n, t in new.items() if n != t)} names respelled, {len(moved)} told apart")


if __name__ == "__main__":
    main()
