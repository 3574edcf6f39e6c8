#!/usr/bin/env bash
# Every `pub fn` has an ensures; each one with a requires stands in docs/CONTRACTS.md as `crate::function`. The three entries,
# and the three functions that C calls, promise what the definitions allow a call, each its own, and ask nothing:
# docs/PROMISES.md leans on that.
set -u
bad=0
for file in crates/*/src/*.rt; do
    crate=${file#crates/}
    crate=${crate%%/*}
    functions=$(awk '
        /^impl / { type = $2 "::" }
        /^}/ { type = "" }
        /^ *pub (extern "C" )?fn / {
            name = $0
            sub(/.*fn /, "", name)
            sub(/[(<].*/, "", name)
            inside = 1; has = "-"; needs = "-"
        }
        inside && /ensures/ { has = "ensures" }
        inside && /requires/ { needs = "requires" }
        inside && (/^ *{/ || (/{ *$/ && !/ensures|requires/)) { print type name, has, needs; inside = 0 }
    ' "$file")
    while read -r name has needs; do
        [ -n "$name" ] || continue
        [ "$has" = ensures ] || { printf '%s: %s has no ensures\n' "$file" "$name"; bad=1; }
        if [ "$needs" = requires ] && ! grep -qF "\`$crate::$name\`" docs/CONTRACTS.md; then
            printf '%s: %s has a requires and is not in docs/CONTRACTS.md\n' "$file" "$name"
            bad=1
        fi
    done <<<"$functions"
done
# promises FILE SPECS NAME:WHAT..: in FILE the function NAME ensures WHAT, which FILE takes from SPECS, and asks nothing.
promises() {
    local file=$1 specs=$2 entry name allows contract
    shift 2
    for entry in "$@"; do
        name=${entry%:*}
        allows=${entry#*:}
        # from the function's name to its body
        contract=$(sed 's|//.*||' "$file" | awk -v name="$name" '
            $0 ~ "^pub (extern \"C\" )?fn " name "\\(" { inside = 1 }
            inside && /^{/ { exit }
            inside' | tr -s ' \n' ' ')
        [ -n "$contract" ] || { printf '%s: there is no pub fn %s\n' "$file" "$name"; bad=1; }
        # the whole fact, not a part of one: neither what it is assumed for nor one of two
        grep -qE "(Reply|u8) ensures \{ $allows [^→⊎↔∨∧×]* \} *$" <<<"$contract" && [ "$(grep -o ensures <<<"$contract" | wc -l)" -eq 1 ] || { printf '%s: %s does not ensure %s\n' "$file" "$name" "$allows"; bad=1; }
        grep -qE "^ghost use $specs\.\{(.*, )?$allows[,}]" "$file" || { printf '%s: %s is not that of %s\n' "$file" "$allows" "$specs"; bad=1; }
        ! grep -q requires <<<"$contract" || { printf '%s: %s has a requires\n' "$file" "$name"; bad=1; }
    done
}
promises crates/terminal/src/lib.rt 'Rattle\.terminal\.specs\.Calls' start:StartAllows host:HostAllows key:KeyAllows
# of what C calls both the library's functions and the exports, which hand on to them
for crate in panel panel_c; do
    promises crates/$crate/src/lib.rt 'Rattle\.panel\.specs\.Panel' \
        panel_start:PanelStartAllows panel_host:PanelHostAllows panel_key:PanelKeyAllows
done
# and no other function is for C
[ "$(cat crates/*/src/*.rt | grep -c 'extern "C" fn')" -eq 3 ] && [ "$(grep -c 'extern "C" fn' crates/panel_c/src/lib.rt)" -eq 3 ] || { printf 'another function than these three is exported\n'; bad=1; }
exit $bad
