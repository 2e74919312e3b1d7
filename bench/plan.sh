#!/usr/bin/env bash
# Times making the exchanges of a run by pieces, which a plan holds, beside reading the grid of `make 15 64`, and looking for
# actions at places of the longest scripts that follow no order. Prints the least of nine runs, with the memory that the
# exchanges hold, first for a piece for each tile and then for finer layouts (4,4; of the air 2,2 and of the land 1,2). It ends
# with status 1 where an aim is missed.
#
#     bench/plan.sh
#
# It proves and builds a program of its own (bench/plan) over copies of the crates below, in a folder that it removes: a few
# minutes where the gate has passed them on this machine, else an hour. It is no part of the tests.
set -eu

top=$(cd "$(dirname "$0")/.." && pwd)
room=$(mktemp -d)
trap 'rm -rf "$room"' EXIT
uses="cpl_gridfile cpl_io cpl_layout cpl_made_grid cpl_mosaic cpl_namelist cpl_wires cpl_xgrid"

# The lines of crates.txt of these crates and of all that they stand on, lowest first.
below() {
    awk -F: -v wanted="$uses" '
        BEGIN { n = split(wanted, names, " "); for (k in names) is_needed[names[k]] = 1; n = 0 }
        /^#/ || !NF { next }
        { name = $1; sub(/ .*/, "", name); crate[++n] = name; under[name] = $2; line[name] = $0 }
        END {
            for (i = n; i > 0; i--)
                if (crate[i] in is_needed) { split(under[crate[i]], names, " "); for (k in names) is_needed[names[k]] = 1 }
            for (i = 1; i <= n; i++) if (crate[i] in is_needed) print line[crate[i]]
        }' "$top/crates.txt"
}

git init -q "$room"
mkdir -p "$room/crates/plan_bench/specs" "$room/crates/plan_bench/proofs"
cp "$top/HANDLES" "$room/HANDLES"
{ below; printf 'plan_bench: %s\n' "$uses"; } >"$room/crates.txt"
for name in $(below | cut -d : -f 1 | cut -d ' ' -f 1); do
    (cd "$top/crates" && tar cf - --exclude=out --exclude=must-fail "$name") | tar xf - -C "$room/crates"
done
(cd "$top/bench/plan" && find . -name '*.txt') | while read -r file; do
    mkdir -p "$room/crates/plan_bench/$(dirname "$file")"
    cp "$top/bench/plan/$file" "$room/crates/plan_bench/${file%.txt}"
done
touch "$room/crates/plan_bench/specs/Lib.antt" "$room/crates/plan_bench/proofs/Lib.antt"
cd "$room"
rt ci >"$room/log" 2>&1 </dev/null || { cat "$room/log"; exit 1; }
"$top/bench/measure_plan.py" "$room/crates/plan_bench/out/plan_bench"
