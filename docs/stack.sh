#!/usr/bin/env bash
# Measures the stack that the exported functions take, from the archive that C links, and shows that the code below them, as written
# and as compiled, has no recursion and no indirect call. Prints `FUNCTION BYTES CHAIN` for each; status 1 where that can't be shown.
# The code is for x86-64, whatever this machine is.
set -eu -o pipefail
cd "$(dirname "$0")/.."
. tests/tools/debian.sh
. tests/tools/archive.sh
need binutils-x86-64-linux-gnu python3-minimal
build_archive
objdump=/usr/bin/x86_64-linux-gnu-objdump

# as written, before the compiler makes loops of what it can: each function of the bitcode that the kit gave it, then what
# it calls there
"$kit/$tools/bin/clang" --target=x86_64-unknown-linux-gnu --no-default-config -x ir $given/module.bc -S -emit-llvm \
    -Xclang -disable-llvm-passes -o - | awk '
    function name(text) { gsub(/^[@%]|"|[(]$/, "", text); gsub(/ /, "_", text); return text }
    BEGIN { named = "[@%](\"[^\"]*\"|[-A-Za-z0-9$._]+)[(]" }
    /^define / { match($0, named); caller = name(substr($0, RSTART, RLENGTH)); functions++; next }
    / (call|invoke) / || /^ *(call|invoke|callbr) / {
        sub(/.*(^| )(call|invoke|callbr) /, " ")
        if (!match($0, named) || substr($0, RSTART, 1) != "@") { print "stack: " caller " has an indirect call, as written"; bad = 1; next }
        callee = name(substr($0, RSTART, RLENGTH))
        if (callee ~ /^llvm[.]/) next
        if (callee == caller) { print "stack: recursion, as written: " caller " calls itself"; bad = 1 }
        print caller, callee | "tsort >/dev/null"
    }
    END { if (!functions) print "stack: no code of panel was seen"; exit bad || !functions || close("tsort >/dev/null") != 0 }' >&2

# Only what was disassembled can be judged: docs/stack.py fails where a function is missing.
{ $objdump -r $archive; $objdump -dr --no-show-raw-insn -M intel $archive; } |
    /usr/bin/python3 -I docs/stack.py panel_start panel_host panel_key
