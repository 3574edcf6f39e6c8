#!/usr/bin/env bash
# Writes docs/FIGURES.md: sizes, and what each crate's check takes from nothing. GATE is the gate's time, as .ci/run told it.
# Run it on a machine that does nothing else, with everything committed.
set -eu
cd "$(dirname "$0")/.."
. tests/tools/debian.sh
need time
lines() { find "$@" -type f -exec cat {} + 2>/dev/null | wc -l; }
told() { sed -n "s/.* $2=\([0-9]*\).*/\1/p" <<<"$1"; }
. tests/tools/archive.sh
rows=$(mktemp)
room=$(mktemp -d)
trap 'rm -rf "$rows" "$room"' EXIT
# a kit that keeps nothing from before, and a copy of the crates in which nothing was made: each check is then from nothing
own_kit "$room"
mkdir "$room/repo"
git archive HEAD crates crates.txt | tar -xC "$room/repo"
for crate in $(grep -v '^#' crates.txt | sed 's/[: ].*//'); do
    here=crates/$crate
    cd "$room/repo/$here"
    measured=$(/usr/bin/time -f '%e %M' "$room/kit/bin/rt" check 2>&1 >"$room/said" </dev/null | tail -n 1)
    last=$(grep '^logic=proved' "$room/said" | tail -n 1) || { tail "$room/said" >&2; printf 'figures: %s is not proved\n' "$crate" >&2; exit 1; }
    # the library for those above
    [ -f src/main.rt ] || "$room/kit/bin/rt" lib >"$room/said" 2>&1 </dev/null
    cd "$OLDPWD"
    functions=$(told "$last" functions)
    axioms=$(told "$last" axioms)
    printf '%s %s %s %s %s %s %s %s %s\n' "$crate" \
        "$(lines $here/src -name '*.rt')" \
        "$(lines $here/specs -name '*.antt')" \
        "$(lines $here/proofs -maxdepth 1 -name '*.antt')" \
        "$(lines $here/proofs -mindepth 2 -name '*.antt')" \
        "${functions:-0}" "${axioms:-0}" \
        "$(find $here/must-fail -name '*.edit' 2>/dev/null | wc -l)" "$measured" >>"$rows"
done
{
    cat <<TEXT
# Figures

Made by \`docs/figures.sh\` ($(uname -m), $(nproc) processors, kit $(rt version | head -n 1)). Lines count comments and blanks. Code is counted with its contracts; laws and theorems are the files of \`proofs/\`, function proofs those of its folders. Functions and axioms are what the crate's last line counts. Seconds and gigabytes are those of one check from nothing, over the crates below it, with nothing else running.

| crate | code | definitions | laws and theorems | function proofs | functions proved | axioms | must-fail edits | seconds | GB |
|---|---|---|---|---|---|---|---|---|---|
TEXT
    awk '{ printf "| %s | %d | %d | %d | %d | %d | %d | %d | %.0f | %.1f |\n", $1, $2, $3, $4, $5, $6, $7, $8, $9, $10 / 1048576
           for (i = 2; i <= 9; i++) sum[i] += $i
           if ($10 > most) most = $10 }
         END { printf "| all | %d | %d | %d | %d | %d | %d | %d | %.0f | %.1f at most |\n", sum[2], sum[3], sum[4], sum[5], sum[6], sum[7], sum[8], sum[9], most / 1048576 }' "$rows"
    printf '\nThe second program has %s lines of Rust. The gate (`.ci/run`) in a fresh clone takes %s.\n' "$(lines second/src -name '*.rs')" "${GATE:-what its last line but one tells}"
} >docs/FIGURES.md
