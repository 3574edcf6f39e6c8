#!/usr/bin/env bash
# The generator of random transcripts is good: each small wrong edit of the second program (second/WRONG.md) is
# found.
set -eu
. tests/tools/debian.sh
second_cargo build
target/second/release/second teeth 1 200 300
