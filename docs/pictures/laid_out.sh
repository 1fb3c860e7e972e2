#!/usr/bin/env bash
# Says which pictures Graphviz, which it installs by name if it is missing, lays out with a warning or not at all:
# of each program of programs/ its own, its run cut off at 200 firings, the story of an answer, and three worlds.
# The last line is 'N passed, M failed'.
set -u
export LC_ALL=C

top=$(cd -P -- "$(dirname -- "${BASH_SOURCE[0]}")/../.." && pwd) || exit 2
cd -- "$top" || exit 2
binary=${U_BINARY:-$top/crates/u/out/u}
command -v dot >/dev/null || { apt-get update && apt-get install -y graphviz; } >/dev/null 2>&1 || exit 2

room=$(mktemp -d) || exit 2
trap 'rm -rf -- "$room"' EXIT
passed=0
failed=0
# Counts whether the picture that `u` prints with these words is laid out, and nothing is said of it.
look() {
    local layout=$1
    shift
    "$binary" "$@" >"$room/picture" 2>/dev/null
    if [ -s "$room/picture" ] && "$layout" -Tsvg "$room/picture" >"$room/svg" 2>"$room/said" && [ ! -s "$room/said" ]; then
        passed=$((passed + 1))
    else
        failed=$((failed + 1))
        echo "u $*: $(head -n 1 -- "$room/said")"
    fi
}

for program in programs/*.u; do
    look dot draw "$program"
    look dot draw "$program" 3
    answer=$("$binary" run "$program" 2 | sed -n 's/^answer /a /p' | head -n 1)
    [ -z "$answer" ] || look dot draw "$program" 2 "$answer"
    look neato world "$program" 2 --seed 1 --events 40 --draw
    look neato world "$program" 2 --seed 2 --replicas 3 --events 100 --draw
    look neato world "$program" 2 --seed 3 --replicas 8 --events 200 --draw
done
echo "$passed passed, $failed failed"
[ "$failed" -eq 0 ]
