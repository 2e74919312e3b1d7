#!/usr/bin/env bash
# Times one post and one take of a list of 1,000 numbers through a box between threads, on one thread, beside
# plain Rust that moves the same list through a Mutex (boxes_plain.rs). Prints nanoseconds, the least of seven
# runs of each.
#
#     bench/boxes.sh
#
# It needs rustc. It proves and builds a program of its own (bench/boxes) over copies of the crates in a folder
# that it removes, in a minute or two, and is no part of the tests.
set -eu

top=$(cd "$(dirname "$0")/.." && pwd)
room=$(mktemp -d)
trap 'rm -rf "$room"' EXIT
mkdir -p "$room/crates/boxes_bench"
cp "$top/HANDLES" "$room/HANDLES"
printf 'cpl_core:\ncpl_box: atomic_table cpl_core\nboxes_bench: cpl_core cpl_box\n' >"$room/crates.txt"
(cd "$top/crates" && tar cf - --exclude=out cpl_core cpl_box) | tar xf - -C "$room/crates"
(cd "$top/bench/boxes" && find . -name '*.txt') | while read -r file; do
    mkdir -p "$room/crates/boxes_bench/$(dirname "$file")"
    cp "$top/bench/boxes/$file" "$room/crates/boxes_bench/${file%.txt}"
done
cd "$room/crates/boxes_bench"
rt run >"$room/log" 2>&1 </dev/null || { cat "$room/log"; exit 1; }
rustc -O --edition 2021 -o "$room/plain" "$top/bench/boxes_plain.rs"

# The least number that a program prints in seven runs.
least() {
    for _ in 1 2 3 4 5 6 7; do "$1" | cut -d ' ' -f 1; done | sort -n | head -n 1
}
boxes=$(least out/boxes_bench)
plain=$(least "$room/plain")
printf 'a box between threads   %4d ns\na list under a Mutex    %4d ns\n' "$boxes" "$plain"
