#!/usr/bin/env bash
# The code below the exported functions has no recursion and no indirect call, and takes no more stack than docs/PANEL.md and
# docs/PROMISES.md say: nothing in the logic bounds the stack.
set -u
measured=$(bash docs/stack.sh) || exit 1
printf '%s\n' "$measured"
bad=0
for page in docs/PANEL.md docs/PROMISES.md; do
    told=$(grep 'bytes of stack' $page)
    for entry in panel_start panel_host panel_key; do
        takes=$(sed -nE "s/^$entry ([0-9]+) .*/\1/p" <<<"$measured")
        most=$(sed -nE "s/.*\`$entry\`( takes at most)? ([0-9][0-9,]*).*/\2/p" <<<"$told" | tr -d ,)
        [ -n "$takes" ] && [ "$takes" -le "${most:-0}" ] || {
            printf '%s takes %s bytes of stack; %s says %s\n' "$entry" "${takes:-?}" $page "${most:-nothing}"
            bad=1
        }
    done
done
exit $bad
