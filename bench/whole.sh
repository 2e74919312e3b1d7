#!/usr/bin/env bash
# Times the command `whole` on made inputs of three sizes, beside another program that takes the same words where one is given.
#
#     bench/whole.sh [OTHER_PROGRAM]
#
# It needs python3, and for the peak of memory GNU time. The inputs, about 60 MB, go to a folder of its own that it removes. It
# takes some minutes on an idle machine, and is no part of the tests.
set -eu

top=$(cd "$(dirname "$0")/.." && pwd)
other=${1:+$(readlink -f "$1")}
room=$(mktemp -d)
trap 'rm -rf "$room"' EXIT
"$top/run.sh" 2>&1 | grep -v '^coupler: usage$' >&2 || true
cd "$room"
for size in 32 48 64; do
    "$top/run.sh" make 15 "$size" "$size" >/dev/null
done
python3 "$top/bench/measure_whole.py" "$top/crates/coupler/out/coupler" ${other:+"$other"}
