#!/usr/bin/env bash
# The benchmark in its short form: a terminal written by hand in C from the papers (bench/plain.c) and the second
# program leave, byte for byte, what the archive leaves after the benchmark's streams and one of cells of every area, in
# calls of several lengths. Plain C does after its keys too, and gives the same numbers to keys drawn at random. Nothing
# is timed.
set -eu -o pipefail
. tests/tools/debian.sh
. tests/tools/archive.sh
build_archive
bench/run --short
