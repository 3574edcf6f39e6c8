#!/usr/bin/env bash
# What a reader reads fits 120 columns: definitions, contracts and comments. Every `pub fn` has a comment right above it.
set -u
. tests/tools/debian.sh
need python3 || exit 2
exec /usr/bin/python3 -I - <<'PY'
import glob, re, sys

definitions = glob.glob("crates/*/specs/**/*.antt", recursive=True)
proofs = glob.glob("crates/*/proofs/**/*.antt", recursive=True)
code = glob.glob("crates/*/src/**/*.rt", recursive=True)
found = []
for name in sorted(definitions + proofs + code):
    contract, depth = False, 0
    above = ""
    with open(name, encoding="utf-8") as lines:
        for number, line in enumerate(lines.read().split("\n"), 1):
            text = line.strip()
            # a contract ends where its braces do
            if not contract and name in code and re.match(r"(requires|ensures)\b", text):
                contract = True
                depth = 0
            comment = text.startswith("//" if name in code else "--")
            if len(line) > 120 and (name in definitions or contract or comment):
                found.append(f"{name}:{number}: {len(line)} characters")
            if name in code and re.match(r'pub (extern "C" )?fn ', text) and not above.startswith("//"):
                found.append(f"{name}:{number}: a pub fn without a comment")
            if contract:
                depth += text.count("{") - text.count("}")
                contract = depth > 0
            if not text.startswith("#["):  # an attribute stands between the two
                above = text
print(*found, f"{len(found)} places", sep="\n")
sys.exit(1 if found else 0)
PY
