#!/usr/bin/env bash
# Runs the command `check` on two large coupled grids, and prints its processor time and its most memory in bytes of the grid.
# It ends with status 1 where that is more than three times.
#
#     bench/check.sh [PROGRAM ..]
#
# Each program that is given takes the same words and runs in turn with it. It needs python3 and GNU time, and 200 MB of disk.
set -eu

top=$(cd "$(dirname "$0")/.." && pwd)
room=$(mktemp -d)
trap 'rm -rf "$room"' EXIT
"$top/run.sh" 2>&1 | grep -v '^coupler: usage$' >&2 || true
"$top/run.sh" make 15 64 "$room/made" >/dev/null
mv "$room/made.grid" "$room/made"
(cd "$room" && bash "$top/tests/cases/coupled-limits/prepare")

status=0
for grid in made largest; do
    bytes=$(stat -c %s "$room/$grid")
    for program in "$top/crates/coupler/out/coupler" "$@"; do
        for _ in 1 2 3 4 5; do
            "$(type -P time)" -f '%U %S %M' "$program" check "$room/$grid" 2>&1 >"$room/line"
        done | awk -v what="$(basename "$program") $grid" -v bytes="$bytes" '
            { seconds = $1 + $2; if (NR == 1 || seconds < least) least = seconds; if ($3 > most) most = $3 }
            END { printf "%s: %d bytes, %.2f s, %.2f times the bytes\n", what, bytes, least, 1024 * most / bytes }' | tee "$room/found"
        if [ "$program" = "$top/crates/coupler/out/coupler" ] && awk '{ exit !($(NF - 3) > 3) }' "$room/found"; then
            status=1
        fi
    done
done
exit $status
