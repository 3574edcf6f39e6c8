#!/usr/bin/env bash
# M-105: every row and column of the largest page as it is sent, in a report and in the head of a block's entry, against
# the numbers as awk prints them.
set -eu -o pipefail
. tests/tools/debian.sh
need mawk
room=$(mktemp -d)
trap 'rm -rf "$room"' EXIT

# The frames, and the bytes that are sent back, both in hexadecimal: reports of all places, then two pages on which every
# other cell is a field of its own, so that the two full blocks have an entry for each place.
/usr/bin/mawk -v sent="$room/expected" '
    function hex(text,    i, out) {
        for (i = 1; i <= length(text); i++) out = out sprintf("%02X", code[substr(text, i, 1)])
        return out
    }
    function host(bytes) { # in frames of at most 255 bytes, that is 510 digits
        for (; length(bytes) > 0; bytes = substr(bytes, 511)) print "01" substr(bytes, 1, 510)
    }
    function place(row, column, last) { return "1B" hex("[" row ";" column last) }
    BEGIN {
        for (i = 32; i < 127; i++) code[sprintf("%c", i)] = i
        print "0030A0"
        for (row = 1; row <= 48; row++)
            for (column = 1; column <= 160; column++) {
                host(place(row, column, "H") "1B" hex("[6n"))
                print place(row, column, "R") >sent
            }
        for (field = 0; field <= 1; field++) {
            print "0030A0"
            for (row = 1; row <= 48; row++) {
                line = ""
                for (column = 1; column <= 160; column++)
                    if (column % 2 == field) {
                        line = line "1B" hex("Wx")
                        print place(row, column, "f") hex("x") >sent
                    } else line = line "1B" hex("V-")
                host(line)
            }
            print "011B53" # ESC S: a full block, whatever the Send key sends
            print "03" >sent
        }
    }' >"$room/frames"
reports=$(grep -c 52$ "$room/expected") heads=$(grep -c 6678$ "$room/expected")
[ "$reports $heads" = '7680 7680' ] || { printf 'places: %s reports and %s heads were to be tried\n' "$reports" "$heads"; exit 1; }

# of a line the bytes sent stand after number, row, column and count: 14 digits
./run transcript <"$room/frames" >"$room/printed" 2>/dev/null
if grep -v ^00 "$room/printed"; then
    printf 'places: a call was not given 0\n'
    exit 1
fi
cmp <(cut -c 15- "$room/printed" | tr -d '\n') <(tr -d '\n' <"$room/expected")
printf 'places: %s reports and %s heads are as they should be\n' "$reports" "$heads"
