#!/usr/bin/env bash
# M-105: the small panel has no divide instruction. The code divides by powers of two alone, and the compiler, which can see
# a division in a loop, makes none either: not in the archive that C links, and not of the same code for two processors
# without a divide instruction, where it would call a routine. (Their code is the x86-64 one's, with numbers of 64 bits.)
set -eu -o pipefail
. tests/tools/debian.sh
. tests/tools/archive.sh
need binutils-x86-64-linux-gnu
clang=$kit/$tools/bin/clang
room=$(mktemp -d)
trap 'rm -rf "$room"' EXIT
say() { printf 'no_divide: %s\n' "$*"; }

# as written
divisions=$(sed -E 's|//.*||; /ensures|requires|ghost use|^ *pub ghost [a-z_]+:/d' crates/*/src/*.rt | grep -oE '[/%]=? *[A-Za-z0-9_.]+' | sort -u)
bad=$(printf '%s\n' "$divisions" | grep -vE '^[/%] (2|4|8|16|32|64|128|256|512|1024)$' | grep -v '^$' || true)
[ -z "$bad" ] || { say "the code divides by what is not a power of two: $bad"; exit 1; }
[ -n "$divisions" ] || { say 'no division was found in the code at all: this test no longer sees it'; exit 1; }

# optimised GIVEN: by the command that the kit gave its compiler, but as text
optimised() {
    local word words=()
    while IFS= read -r word; do
        case $word in
        -c) words+=(-S -emit-llvm) ;;
        *.bc) words+=("$1/module.bc") ;;
        *.o) words+=(-) ;;
        *) words+=("$word") ;;
        esac
    done <"$1/words"
    "$clang" "${words[@]}"
}

# plain GIVEN: as it was given, without what names a processor
plain() {
    "$clang" --target=x86_64-unknown-linux-gnu --no-default-config -x ir "$1/module.bc" -S -emit-llvm \
        -Xclang -disable-llvm-passes -o - | sed -E '/^target /d; s/"target-cpu"="[^"]*"//'
}

# functions TEXT, archived ARCHIVE: the names of its functions
functions() { sed -nE 's/^define .*@("([^"]*)"|([^(]*))\(.*/\2\3/p' "$1" | sort; }
archived() { /usr/bin/x86_64-linux-gnu-nm "$1" | awk 'NF == 3 && $2 ~ /[tT]/ { print $3 }' | sort; }

# look GIVEN ARCHIVE: tells of every division, and what was looked at; status 1 where there is one, or nothing to look at
look() {
    local target level found bad=0
    [ -s "$1/module.bc" ] || { say 'there is no bitcode to look at'; return 1; }
    optimised "$1" >"$room/optimised.ll"
    plain "$1" >"$room/plain.ll"
    functions "$room/optimised.ll" >"$room/functions"
    [ -s "$room/functions" ] || { say 'the bitcode has no function to look at'; return 1; }
    archived "$2" | cmp - "$room/functions" || { say 'the bitcode has other functions than the archive'; return 1; }
    say "$2: looked at $(functions "$room/plain.ll" | wc -l) functions, $(wc -l <"$room/functions") where others are taken into them"
    if grep -nE '\b[us](div|rem)\b' "$room/optimised.ll"; then
        say 'a division, as the kit optimises the code'
        bad=1
    fi
    for target in thumbv6m-none-eabi 'riscv32-unknown-elf -march=rv32i -mabi=ilp32'; do
        for level in -O3 -Os; do
            # shellcheck disable=SC2086 # of the target's words each is one
            "$clang" --target=$target --no-default-config -Wno-override-module $level -x ir "$room/plain.ll" -S -o "$room/code.s"
            found=$(sed -nE 's/.*\b(__[a-z0-9_]+).*/\1/p' "$room/code.s" | sort -u | tr '\n' ' ')
            say "${target%%-*} $level calls: ${found:-no routine}"
            [[ ! $found =~ (div|mod) ]] || { say "a routine for division is called on ${target%%-*} at $level"; bad=1; }
        done
    done
    return $bad
}

# as compiled
build_archive
look $given $archive

# The look has teeth: it sees the division in the loop as it was, in each of its ways, and fails where it sees nothing.
# refused GIVEN ARCHIVE TOLD..: it fails, and tells each of these
refused() {
    local told
    if look "$1" "$2" >"$room/told" 2>&1; then
        say "passed, and should have told: $3"
        exit 1
    fi
    for told in "${@:3}"; do
        grep -qF "$told" "$room/told" || { cat "$room/told"; say "not told: $told"; exit 1; }
    done
}
# The loop as it was before M-105, in a repository of its own: a crate in this one would have to be listed.
crate=$room/repo/crates/as_it_was
mkdir -p "$crate/src" "$crate/proofs/tens_of"
echo 'as_it_was staticlib:' >"$room/repo/crates.txt"
cat >"$crate/src/lib.rt" <<'CODE'
#![tactic(auto)]

ghost use Rattle.std.specs.Prelude.{◌≡◌, ◌/◌};

#[unsafe(no_mangle)]
pub extern "C" fn tens_of(number: usize) -> usize
    ensures { result ≡ number / 10 }
{
    let mut times = 0;
    let mut left = number;
    while 10 <= left {
        left -= 10;
        times += 1;
    }
    times
}
CODE
cat >"$crate/proofs/tens_of/Invariants.antt" <<'PROOF'
use Rattle.std.proofs.Common.{◌+◌, ◌≡◌, ◌*◌}
use Rattle.as_it_was.proofs.tens_of.Given as goal

abbrev pub invariant-loop-left : goal.invariant-loop-left
invariant-loop-left l = l.fn.number ≡ l.times * 10 + l.left

abbrev pub decreases-loop-left : goal.decreases-loop-left
decreases-loop-left l = l.left
PROOF
was=$room/repo/given
loop=$room/repo/libas_it_was.a
(cd "$room/repo" && staticlib as_it_was "$loop" "$was")
refused "$was" "$loop" 'a division, as the kit optimises the code' 'is called on thumbv6m at -O3' \
    'is called on thumbv6m at -Os' 'is called on riscv32 at -O3' 'is called on riscv32 at -Os'
refused "$was" $archive 'the bitcode has other functions than the archive'
"$clang" --target=x86_64-unknown-linux-gnu --no-default-config -Wno-override-module -x ir /dev/null -c -emit-llvm -o "$was/module.bc"
refused "$was" "$loop" 'the bitcode has no function to look at'
rm "$was/module.bc"
refused "$was" "$loop" 'there is no bitcode to look at'
say 'the loop as it was, an empty module and no bitcode at all are refused'
