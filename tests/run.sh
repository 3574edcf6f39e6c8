#!/usr/bin/env bash
# ./run over a stand-in for rt: it says on standard error alone how long proving takes and how far it is, counts what
# was proved before, and runs nothing that is not proved.
set -u
room=$(mktemp -d) || exit 2
trap 'rm -rf "$room"' EXIT
mkdir -p "$room/bin" "$room/docs" "$room"/crates/{a,b,other} "$room/crates/c/src"
touch "$room/crates/c/src/main.rt"
cp run "$room/run"
printf '# NAME: DEPENDENCY ..\na:\nother: a\nb: a\nb_c staticlib: b\nc: a b\n' >"$room/crates.txt"
printf '| %s | 1 | 1 | 1 | 1 | 1 | 0 | 0 | %s | 0.1 |\n' a 70 other 900 b 50 c 45 >"$room/docs/FIGURES.md"
cat >"$room/bin/rt" <<'RT'
#!/bin/bash
# The stand-in, in the folder of c: reads what it is given, proves a, b and c, but not the one that REFUSED names, links c
# and runs it. As rt does, it tells so on standard error, says nothing of a library that is built, and leaves stamps.
[ "$*" = run ] && [ "${PWD##*/}" = c ] || exit 2
cat >/dev/null
again=
for crate in a b c; do
    out=../$crate/out stamp=../$crate/out/rlib/stamp
    [ $crate != c ] || stamp=$out/c.stamp
    if [ $crate != c ] && [ -f $stamp ] && [ -z "$again" ] && [ -z "$(find ../$crate -maxdepth 0 -newer $stamp)" ]; then
        continue
    fi
    again=yes
    echo "rt: chose --jobs 2 for $crate" >&2
    echo "fn $crate::f: proved" >&2
    if [ "$REFUSED" = $crate ]; then
        echo 'logic=not-proved' >&2
        exit 1
    fi
    echo 'logic=proved functions=1' >&2
    mkdir -p $out/rlib
    touch -d '1 hour' $stamp
done
printf '#!/bin/sh\necho "$@"\ncat\nexit 7\n' >out/c
chmod 755 out/c
echo 'rt: running out/c; to give it other input, run that file yourself' >&2
exec out/c
RT
chmod +x "$room/bin/rt"

bad=0
# tried REFUSED STATUS OUT TOLD..: runs c and holds its status, output and what it told, but rt's own words, to these.
tried() {
    local refused=$1 status out told
    out=$(echo in | REFUSED=$refused PATH=$room/bin:$PATH bash "$room/run" c word 2>"$room/told")
    status=$?
    told=$(sed -nE 's/^run: .* (about [0-9]+ min|[0-9]+ of [0-9]+: [a-z]+ [a-z-]+)( .*)?$/\1/p' "$room/told" | tr '\n' ' ')
    [ "$status:$out:$told" = "$2:$3:$4" ] || {
        printf 'run: status %s, output "%s", told "%s"\n' "$status" "$out" "$told"
        cat "$room/told"
        bad=1
    }
}
program=$'word\nin'
tried b 1 '' 'about 3 min 1 of 3: a proved 2 of 3: b not-proved '
tried none 7 "$program" 'about 2 min 1 of 2: b proved 2 of 2: c proved '
tried none 7 "$program" ''
# a program that is gone is built again, over what was proved before
rm "$room/crates/c/out/c"
tried none 7 "$program" 'about 1 min 1 of 1: c proved '
# a crate that changed is proved again, with all over it
rm "$room/crates/c/out/c"
touch -d '2 hours' "$room/crates/a"
tried none 7 "$program" 'about 3 min 1 of 3: a proved 2 of 3: b proved 3 of 3: c proved '
# what is for C is no program, and neither is what is not there
for name in b_c nothing; do
    [ "$(PATH=$room/bin:$PATH bash "$room/run" $name 2>&1 </dev/null)" = "run: there is no program $name" ] || { echo "run: $name was run"; bad=1; }
done
exit $bad
