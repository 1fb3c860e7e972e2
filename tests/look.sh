#!/usr/bin/env bash
# Tries what needs no proof, over a look, or over the proved program if no source is newer: the cases of the
# commands that a look has, the gallery, and random sources. The exit status is 0 if all of it passed.
. "$(dirname -- "${BASH_SOURCE[0]}")/common.sh" || exit 2
cd -- "$top" || exit 2
said=$(./u check programs/double.ul 2>&1) || { echo "$said" >&2; exit 1; }
export U_BINARY=$top/crates/u/out/u
case $said in *': unproved: '*) U_BINARY=$top/.look/u ;; esac
# Without those that bound memory, or read 64 MiB, which a program with checks does slowly, or run the script.
awk 'BEGIN { RS = ""; ORS = "\n\n" }
    /\nwords: (run|check|compile|explain|waits) / && !/\n(memory|by): |longest|too_long|endless/' \
    tests/cases/*.txt >"$temp/cases"

CASES=$temp/cases tests/run.sh || failed=1
tests/gallery.py || failed=1
tests/random_sources.py --programs 100 || failed=1
exit "$failed"
