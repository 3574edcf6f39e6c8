#!/usr/bin/env bash
# Every must-fail edit changes code or a definition, says which fact no longer holds, and was refused for that fact:
# rt says of it that something is not proved. One that only broke the form (a syntax error, a name or a path that is
# gone), or that the prover gave up on at a limit of its own, shows nothing. In the gate RT_SAID is what `rt ci` said;
# without it `rt must-fail` tries them now.
set -u
bad=0
complain() { printf '%s: %s\n' "$1" "$2"; bad=1; }

said=${RT_SAID:-}
if [ -z "$said" ]; then
    said=$(mktemp) || exit 2
    trap 'rm -f "$said"' EXIT
    rt must-fail >"$said" 2>&1 </dev/null
fi

for edit in crates/*/must-fail/*.edit; do
    [ -f "$edit" ] || continue
    case $(head -n 1 "$edit") in '' | file:* | old:* | new:*) complain "$edit" "its first line does not name the fact" ;; esac
    grep '^file:' "$edit" | grep -qvE '^file: (src|specs)/' && complain "$edit" "it edits something else than src/ or specs/"
    crate=${edit#crates/}
    told="rt: must-fail ${crate%%/*}/${edit##*/}: "
    why=$(grep -F "$told" "$said" | tail -n 1)
    why=${why#"$told"}
    if [ -z "$why" ]; then
        complain "$edit" "it was not tried"
    elif [[ $why != 'refused, as it must be: '* ]]; then
        # 'NOT REFUSED', 'BAD EDIT', 'NOT TRIED', or refused only for a name in a proof or by a limit
        complain "$edit" "$why"
    elif grep -qE '^[^:]*: note: [^ ]+: it is not proved that ' <<<"$why"; then
        : # of the code, with the place of the goal in src/
    elif ! grep -qE '^[^:]*: (\./)?proofs/[^ ]*: error: `' <<<"$why"; then
        complain "$edit" "no proof was refused: ${why#*: }"
    elif grep -qE 'can be named from here|is not in scope|has no |was not admitted|was rejected|exports no' <<<"$why"; then
        complain "$edit" "refused for its form: ${why#*: }"
    fi
done
exit $bad
