#!/usr/bin/env bash
# The largest block of each of the nine sizes, sent by the program: that of a page with a field in each even column, the
# first of which begins in column 1. How many bytes it has was worked out from the form of a block alone; the second
# program's tests find as many, over all pages of the size.
set -eu -o pipefail
sizes='24 80 8186, 24 132 13976, 24 160 17210, 27 80 9254, 27 132 15797, 27 160 19451, 48 80 16730, 48 132 28544, 48 160 35138'

# paint ROWS COLUMNS: a protected and an unprotected cell in turn, 40 times a frame; then 1;1 unprotected, and ESC S,
# which sends a full block whatever the Send key sends.
paint() {
    printf '00%02X%02X\n' "$1" "$2"
    local pairs=$(($1 * $2 / 2)) now
    while [ $pairs -gt 0 ]; do
        now=$((pairs < 40 ? pairs : 40))
        printf '01'
        printf '1B56201B5720%.0s' $(seq $now)
        printf '\n'
        pairs=$((pairs - now))
    done
    printf '011B5B481B57201B53\n'
}

expected=$(tr ',' '\n' <<<"$sizes" | awk '{ print $3 }')
# a line of what is printed has seven bytes before those sent
sent=$(tr ',' '\n' <<<"$sizes" | while read -r rows columns _; do paint "$rows" "$columns"; done |
    ./run | awk 'length($0) > 14 { print length($0) / 2 - 7 }')
[ "$sent" = "$expected" ] || {
    printf 'the largest blocks have %s bytes, not %s\n' "$(echo $sent)" "$(echo $expected)"
    exit 1
}
