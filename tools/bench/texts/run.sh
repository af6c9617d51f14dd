#!/usr/bin/env bash
# Times our reader of zone texts beside libical on the same texts in one run, and prints MB/s of both,
# by processor time.
#
#     (cd crates/exports && rt lib) && bash tools/bench/texts/run.sh [MEGABYTES]
#
# Needs a C compiler and libical (Debian: libical-dev). Our reader checks each text whole and fills a
# window that is made anew for each; libical parses each text and its rows are visited.
set -eu
here=$(cd "$(dirname "$0")" && pwd)
root=$(cd "$here/../../.." && pwd)
kit=$(dirname "$(rt doc)")
work=$(mktemp -d)
trap 'rm -rf "$work"' EXIT
cc -O2 -o "$work/read" "$here/read.c" "$root/crates/exports/out/libexports.a" "$kit/c/libos_c.a" "$kit/c/liblibc_c.a" -lical
python3 "$here/repeat.py" "$root/crates/texts/stdin" "$root/crates/texts/stdout" "${1:-20}" > "$work/texts"
"$work/read" < "$work/texts"
