#!/usr/bin/env bash
# docs/INDEX.md names the lines where things are declared now.
set -u
now=$(docs/index.sh) || exit 1
diff <(printf '%s\n' "$now") docs/INDEX.md
