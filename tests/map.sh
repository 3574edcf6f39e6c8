#!/usr/bin/env bash
# In docs/MAP.md each `name`, .. (crate/File) is declared in File.antt of the crate's specs/ or proofs/.
set -u
. tests/tools/debian.sh
need python3 || exit 2
/usr/bin/python3 -I - <<'PY'
import glob, re, sys
bad = 0
group = r"((?:`[^` ]+`, )*`[^` ]+`) \(([a-z]+)/([A-Z][A-Za-z]*)\)"
for names, crate, file in re.findall(group, open("docs/MAP.md", encoding="utf-8").read()):
    # what the page's head says of its own signs
    if crate == "crate":
        continue
    text = "".join(open(path, encoding="utf-8").read() for path in glob.glob(f"crates/{crate}/*/{file}.antt"))
    for name in re.findall(r"`([^`]+)`", names):
        if not re.search(rf"(?m)^ *(pub |abbrev |unfoldable |record |data )*{re.escape(name)}( :| \(|$)", text):
            print(f"docs/MAP.md: {name} is not declared in {file}.antt of crates/{crate}")
            bad = 1
sys.exit(bad)
PY
