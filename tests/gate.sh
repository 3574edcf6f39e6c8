#!/usr/bin/env bash
# The gate itself, over a stand-in for rt: it passes only where it should, and prints a verdict only then.
set -u
room=$(mktemp -d) || exit 2
trap 'rm -rf "$room"' EXIT
mkdir -p "$room/bin" "$room/repo/.ci" "$room/repo/tests" "$room/repo/crates/a/must-fail"
cp .ci/run "$room/repo/.ci/run"
cp tests/edits.sh "$room/repo/tests/edits.sh"
cat >"$room/bin/rt" <<'RT'
#!/bin/sh
# The stand-in: SAYS is its last line, STATUS its status, OK what its line 'rt: ok' says of the edits, EDIT what is said of
# the edit. It is called as the gate has to call it.
[ "$*" = ci ] || exit 2
echo "9 passed, 0 failed"
echo "rt: must-fail a/wrong.edit: $EDIT"
[ -z "$OK" ] || echo "rt: ok; handles allowed: none$OK; every proof and must-fail edit was done in this run"
printf '%s\n' "$SAYS"
exit "$STATUS"
RT
chmod +x "$room/bin/rt"
printf 'The fact.\nfile: src/lib.rt\nold: a\nnew: b\n' >"$room/repo/crates/a/must-fail/wrong.edit"
must='refused, as it must be'

bad=0
# gate WHAT WANTED TEST-STATUS: runs the gate and holds its status, last line and verdicts to what is wanted.
gate() {
    printf 'echo "5 passed, 0 failed"\nexit %s\n' "$3" >"$room/repo/tests/other.sh"
    PATH=$room/bin:$PATH bash "$room/repo/.ci/run" >"$room/out" 2>&1
    local status=$? last verdicts
    last=$(tail -n 1 "$room/out")
    verdicts=$(grep -cE 'passed, [0-9]+ failed' "$room/out")
    case $2 in
    passes) [ "$status" -eq 0 ] && [ "$last" = "$SAYS" ] && [ "$verdicts" -eq 1 ] ;;
    fails) [ "$status" -ne 0 ] && [[ $last == 'gate: FAILED: '* ]] && ! grep -qE '^[0-9]+ passed, 0 failed' "$room/out" ;;
    esac || {
        printf 'the gate over a run %s: should %s, and gave status %s and "%s"\n' "$1" "${2%s}" "$status" "$last"
        bad=1
    }
}
export SAYS='3 passed, 0 failed' STATUS=0 OK='; must-fail edits: 1 refused'
export EDIT="$must: note: src/lib.rt:1:1: it is not proved that what the function ensures holds when it returns (\`returns\`)"
gate 'in which all passed' passes 0
EDIT="$must: proofs/f/Answers.antt:1:1: error: \`returns\`: \`search\`: no proof" gate 'with an edit refused in a proof file' passes 0
EDIT="$must: ./proofs/Laws.antt:1:1: error: \`law\`: \`refl\` does not have this type" gate 'with an edit refused in a law' passes 0
STATUS=1 gate 'of status 1 with a good last line' fails 0
SAYS='3 passed, 1 failed' gate 'with a failed crate' fails 0
SAYS='0 passed, 0 failed' gate 'of nothing' fails 0
SAYS='rt: ok' gate 'with no verdict' fails 0
SAYS='unit: 3 passed, 0 failed' gate 'with an altered verdict' fails 0
SAYS='3 passed, 0 failed (a and the crates below alone: not the gate)' gate 'of some crates alone' fails 0
gate 'with a failed test' fails 1
# what the line 'rt: ok' says of the edits
OK='; must-fail edits: 1 refused, 0 bad' gate 'with no bad edit, and told so' passes 0
OK='; must-fail edits: 0 refused, 1 bad' gate 'with a bad edit' fails 0
OK='; must-fail edits: 1 refused, 2 bad' gate 'with bad edits beside the good one' fails 0
OK='; must-fail edits: 1 refused, 1 of them only by a limit, 10 bad' gate 'with ten bad edits' fails 0
OK='; must-fail edits: 2 refused' gate 'with another number of edits' fails 0
OK='' gate 'without the line "rt: ok"' fails 0
OK=' ' gate 'that tells of no edits' fails 0
# what is said of an edit
EDIT='BAD EDIT: the prover cannot read the edited text' gate 'with an edit that does not parse' fails 0
EDIT='NOT REFUSED: the crate is still proved with this edit' gate 'with an edit that is proved' fails 0
EDIT='NOT TRIED: its check was killed' gate 'with an edit that was not tried' fails 0
EDIT="$must" gate 'with an edit refused for no told reason' fails 0
EDIT="$must (only because a proof file names what the edit took away): proofs/f/Answers.antt:1:1: error: \`x\`: it has no field y" \
    gate 'with an edit that broke a name' fails 0
EDIT="$must (only by a limit of the prover, which gave no verdict): src/lib.rt:1:1: error: antt ran out of stack" \
    gate 'with an edit that came to a limit' fails 0
EDIT="$must: proofs/f/Answers.antt:1:1: error: \`x\`: module has no \`y\` that can be named from here" gate 'with an edit that lost a goal' fails 0
EDIT="$must: proofs/f/Answers.antt:1:1: error: \`y\` is not in scope" gate 'with an edit that lost a name' fails 0
EDIT="$must: specs/F.antt:1:1: error: the \`[\` is still open" gate 'with an edit of which a bracket is open' fails 0
EDIT="$must: note: src/lib.rt:1:1: nothing" gate 'with an edit that no proof refused' fails 0
exit $bad
