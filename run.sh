#!/usr/bin/env bash
# Runs the program `coupler` with the words that it is given, on files of the folder that it is called in:
#
#     ./run.sh solo GRID START OUT N
#
# Where the program isn't built yet for these sources, all of it is proved and built first (.ci/build), which says on
# standard error how far it is. The exit status is the program's, and 125 where there is no program to run.
#
# The program's lists get large pages where the system gives them to those that ask: GLIBC_TUNABLES asks the C library of
# Linux for that, and not to give lists of 128 kB and more memory of their own, where those below 2 MB would have small
# pages. It changes no result. Where glibc.malloc.hugetlb is said there already, all stays as it is said.
set -u

top=$(dirname "$(readlink -f "${BASH_SOURCE[0]}")")
out=$top/crates/coupler/out

# Says why there is no program to run, and ends.
stop() {
    printf 'run.sh: %s\n' "$*" >&2
    exit 125
}

is_built() {
    local sum
    [ -x "$out/coupler" ] && sum=$("$top/.ci/sources") && [ "$sum" = "$(cat "$out/sources" 2>/dev/null)" ]
}

command -v rt >/dev/null || stop "there is no command 'rt': the program is proved and built with the toolchain that README.md names"
if ! is_built; then
    if ! mkdir -p "$out" 2>/dev/null || [ ! -w "$out" ]; then
        stop "the program isn't built for these sources yet, and nothing can be written to $out: run it in a copy that is yours"
    fi
    "$top/.ci/build" || exit 125
fi
case ${GLIBC_TUNABLES-} in
*glibc.malloc.hugetlb=*) ;;
*) export GLIBC_TUNABLES="${GLIBC_TUNABLES:+$GLIBC_TUNABLES:}glibc.malloc.hugetlb=1:glibc.malloc.mmap_threshold=1073741824" ;;
esac
exec "$out/coupler" "$@"
