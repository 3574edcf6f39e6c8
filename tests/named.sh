#!/usr/bin/env bash
# Every name that docs/ and the README put in backticks is there: a file, a function of the crate that it names, or else a word of
# the code, of a definition or of a test. docs/DESIGN-PASS.md tells what was, as docs/landings do: of it, the column that says what
# states a promise today.
set -u
. tests/tools/debian.sh
need git || exit 2
files=$(/usr/bin/git ls-files) || exit 2
words=$(mktemp) || exit 2
trap 'rm -f "$words"' EXIT
grep -vE '^(docs/|README)' <<<"$files" | xargs cat | tr -s '][ (){};,.`"|/:&=\n' '\n' | sort -u >"$words"
bad=0
while IFS=: read -r file name; do
    # of a path its last name, without its ending
    last=${name##*::}
    last=${last##*/}
    last=${last%%.*}
    crate=${name%%::*}
    if [[ $name == [a-z]*::* ]]; then
        grep -qsE "(fn|enum|struct|type) $last\b" crates/"$crate"/src/*.rt
    else
        [ -e "$name" ] || [ -z "$last" ] || grep -qxF -- "$last" "$words" || grep -qE "(^|/)$last(\.|$)" <<<"$files"
    fi || {
        printf '%s: `%s` is nowhere in the repository\n' "$file" "$name"
        bad=1
    }
done < <({
    grep -oE '`[A-Za-z][A-Za-z0-9_:/.*-]*`' docs/*.md README.md | grep -v '^docs/DESIGN-PASS\.md:'
    # a type's or the library's own functions are in no crate of this repository
    sed -n '/^## What is gone/,/^## The table/s/^|[^|]*| *//p' docs/DESIGN-PASS.md |
        grep -oE '`[A-Za-z][A-Za-z0-9_:/.*-]*`' | grep -vE '`(usize|u8)::' | sed 's|^|docs/DESIGN-PASS.md:|'
} | tr -d '`' | sort -u)
exit $bad
