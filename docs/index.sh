#!/usr/bin/env bash
# Prints docs/INDEX.md with its line numbers as they are now: in `NAME` (FILE:LINE) the line that declares NAME.
# After a change: docs/index.sh >new && mv new docs/INDEX.md; tests/index.sh compares.
set -u
cd "$(dirname "$0")/.." || exit 2
status=0
while IFS= read -r text; do
    rest=$text
    while [[ $rest =~ \`([^\`]+)\`\ \(([a-z][A-Za-z/_.]*):([0-9]+)\)(.*) ]]; do
        name=${BASH_REMATCH[1]} file=${BASH_REMATCH[2]} was=${BASH_REMATCH[3]} rest=${BASH_REMATCH[4]}
        now=$(grep -nE "^ *((pub|abbrev|unfoldable|record|data|extern \"C\"|fn|infix[a-z]* [0-9]+) )*$name( :| \(|\(|$)" "$file" |
            head -n 1 | cut -d: -f1)
        [ -n "$now" ] || { printf 'docs/INDEX.md: %s does not declare %s\n' "$file" "$name" >&2; status=1; continue; }
        text=${text/"\`$name\` ($file:$was)"/"\`$name\` ($file:$now)"}
    done
    printf '%s\n' "$text"
done <docs/INDEX.md
exit $status
