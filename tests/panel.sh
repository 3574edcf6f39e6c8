#!/usr/bin/env bash
# The exported functions as C calls them, by include/panel.h and docs/PANEL.md: header and archive, the sample program,
# the second program's transcripts and calls through a driver in C, the characters that cells take, what the Send key
# sends, the required fields that hold it back, and whatever C can get wrong (tests/panel/). In the last five every
# slice lies between pages that may not be touched, and what may not be written can only be read.
# The archive is for x86-64; elsewhere programs run under Debian's emulator.
set -eu -o pipefail
. tests/tools/debian.sh
. tests/tools/archive.sh
emulator=()
case $(dpkg --print-architecture) in
amd64) need gcc g++ libc6-dev python3 ;;
*)
    need gcc-x86-64-linux-gnu g++-x86-64-linux-gnu libc6-dev-amd64-cross qemu-user python3
    # a plain processor: on newer ones the C library copies by instructions that are slow to emulate
    emulator=(/usr/bin/qemu-x86_64 -cpu qemu64)
    ;;
esac
second_cargo build
build_archive
tool=/usr/bin/x86_64-linux-gnu
second=target/second/release/second

# step COMMAND..: says what is run, and runs it
step() {
    printf 'panel: %s\n' "$*" >&2
    "$@"
}

step $tool-gcc -std=c99 -pedantic -Wall -Wextra -Werror -fsyntax-only -x c include/panel.h
step $tool-g++ -std=c++11 -Wall -Wextra -Werror -fsyntax-only -x c++ include/panel.h
step /usr/bin/python3 -I tests/panel/header.py

# The three functions and nothing else for others; no data that a call could leave something in; the C library's copying
# at most is called.
symbols=$($tool-nm $archive)
exported=$(awk 'NF == 3 && $2 ~ /[A-Z]/ { print $3 }' <<<"$symbols" | sort | tr '\n' ' ')
[ "$exported" = 'panel_host panel_key panel_start ' ] || { printf '%s exports: %s\n' $archive "$exported"; exit 1; }
data=$(awk 'NF == 3 && $2 ~ /[bBdDC]/ { print $3 }' <<<"$symbols")
[ -z "$data" ] || { printf '%s has data that can be written: %s\n' $archive "$data"; exit 1; }
outside=$(awk 'NF == 2 && $1 == "U" && $2 !~ /^mem(cpy|move|set)$/ { print $2 }' <<<"$symbols")
[ -z "$outside" ] || { printf '%s calls outside: %s\n' $archive "$outside"; exit 1; }
printf 'panel: %s exports %s\n' $archive "$exported"

room=target/panel
mkdir -p $room
build() {
    step $tool-gcc -std=c99 -pedantic -Wall -Wextra -Werror -O2 -static -Iinclude "${@:2}" $archive -o "$room/$1"
}
sed -n '/^```c$/,/^```$/{/^```/d;p}' docs/PANEL.md >$room/page.c
build page $room/page.c
build sample sample/panel.c
build driver tests/panel/driver.c tests/panel/lent.c
build refusals tests/panel/refusals.c tests/panel/lent.c
build taken tests/panel/taken.c tests/panel/lent.c
build send tests/panel/send.c tests/panel/lent.c
build required tests/panel/required.c tests/panel/lent.c

run() { step "${emulator[@]}" "$@"; }
driver=("${emulator[@]}" $room/driver)

run $room/sample | diff sample/panel.out -
# the page's program sends the bytes of the sample session's first block
sent=$(run $room/page | od -An -v -tx1 | tr -d ' \n' | tr a-f A-F)
grep -qxE "[0-9A-F]{14}$sent" <(grep -m 1 -E '^.{16,}03$' sample/stow.out) || {
    printf 'the program in docs/PANEL.md sends %s\n' "$sent"
    exit 1
}
for session in stow remark kinds send required; do
    run $room/driver transcript <sample/$session.txt | diff sample/$session.out -
done
new=$(date +%s)
printf 'panel: new seeds: %s and the 49 after it\n' "$new"
# beside the rest, which takes about as long
{
    step $second compare transcript "${driver[@]}" transcript -- 1 200 300
    step $second compare transcript "${driver[@]}" transcript -- "$new" 50 300
    run $room/taken
    run $room/send
    run $room/required
    run $room/refusals
} >$room/beside.log 2>&1 &
beside=$!
trap wait EXIT
step $second compare calls "${driver[@]}" calls -- 1 60 100
step $second compare calls "${driver[@]}" calls -- "$new" 50 100
step $second sweep "${driver[@]}" calls
step $second rooms "${driver[@]}" calls
wait $beside && status=0 || status=$?
cat $room/beside.log
exit $status
