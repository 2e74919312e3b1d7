#!/usr/bin/env bash
# Makes `grid` and `start` anew, in the folder of this script.
set -eu
cd "$(dirname "$0")"

# Six tiles of 4 by 4 cells, whose areas are the greater the nearer they lie to the middle of their tile.
{
    printf 'grid 1 air\nmosaic atmos 6\n'
    for tile in 0 1 2 3 4 5; do
        printf 'tile 4 4\narea 12 14 14 12\narea 14 16 16 14\narea 14 16 16 14\narea 12 14 14 12\n'
    done
    printf 'contacts 12\n'
    printf 'contact %s %s 0 3 %s %s 0 3 %s\n' \
        0 E 1 W 0 0 N 2 W 1 0 W 4 N 1 0 S 5 N 0 1 N 2 S 0 1 E 3 S 1 \
        1 S 5 E 1 2 E 3 W 0 2 N 4 W 1 3 N 4 S 0 3 E 5 S 1 4 E 5 W 0
    printf 'end\n'
} >grid

# Numbers of eight bytes, big-endian: the mark `CPLAIR01`, 96 heats, 96 vapours. Cell 15 has heat 1600000, cell 0 vapour
# 96000, all others have none.
{
    printf '43504c4149523031 %016x ' 96
    for cell in $(seq 0 95); do printf '%016x ' $((cell == 15 ? 1600000 : 0)); done
    printf '%016x ' 96
    for cell in $(seq 0 95); do printf '%016x ' $((cell == 0 ? 96000 : 0)); done
} | xxd -r -p >start
