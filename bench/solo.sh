#!/usr/bin/env bash
# Times the command `solo` beside the same in plain Rust (solo_plain.rs), and prints a table.
#
#     bench/solo.sh [FOLDER]
#
# It needs rustc and python3, and for the peak of memory GNU time. The inputs, about 60 MB, go to the folder, or to one of
# its own that it removes. It takes a minute or two on an idle machine, and is no part of the tests.
set -eu

top=$(cd "$(dirname "$0")/.." && pwd)
if [ $# -gt 0 ]; then
    mkdir -p "$1"
    room=$(cd "$1" && pwd)
else
    room=$(mktemp -d)
    trap 'rm -rf "$room"' EXIT
fi
"$top/run.sh" 2>&1 | grep -v '^coupler: usage$' >&2 || true
rustc -O --edition 2021 -o "$room/solo_plain" "$top/bench/solo_plain.rs"
cd "$room"
python3 "$top/bench/make_inputs.py" single 512 single.grid single.start
python3 "$top/bench/make_inputs.py" equal 512 equal.grid equal.start
python3 "$top/bench/make_inputs.py" wide 512 wide.grid wide.start
python3 "$top/bench/make_inputs.py" cubed 200 cubed.grid cubed.start
python3 "$top/bench/make_inputs.py" largest largest.grid largest.start
python3 "$top/bench/make_inputs.py" refused $((30 << 20)) refused.grid refused.start
cp "$top/examples/two_cells/grid" two.grid
cp "$top/examples/two_cells/start" two.start
python3 "$top/bench/measure.py" "$top/crates/coupler/out/coupler" ./solo_plain
