#!/usr/bin/env bash
# Says which pictures of docs/pictures are old: each was drawn by Graphviz from what `u` printed of the program of
# the same name, or of the source where there is no program, of a run of one, or of a world, and ends with the
# checksum of that text. The last line is 'N passed, M failed'.
#
#   docs/pictures/draw.sh           says which are old
#   docs/pictures/draw.sh --write   draws those anew, with Graphviz, which it installs by name if it is missing
set -u
export LC_ALL=C

top=$(cd -P -- "$(dirname -- "${BASH_SOURCE[0]}")/../.." && pwd) || exit 2
cd -- "$top" || exit 2
binary=${U_BINARY:-$top/crates/u/out/u}
writes=
[ "${1-}" = --write ] && writes=yes

# What stands at the end of the picture of a text.
mark() {
    printf '<!-- the text: sha256 %s -->\n' "$(sha256sum <"$1" | cut -d ' ' -f 1)"
}

# Draws the picture of the text in a file.
write() {
    command -v dot >/dev/null || { apt-get update && apt-get install -y graphviz; } >/dev/null 2>&1 || return 1
    dot -Tsvg "$1" >"$1.svg" && { cat -- "$1.svg"; mark "$1"; } >"$2"
}

room=$(mktemp -d) || exit 2
trap 'rm -rf -- "$room"' EXIT
passed=0
failed=0
# Counts whether the picture of that name is of what `u` prints with the other words.
look() {
    local name=$1 picture=docs/pictures/$1.svg
    shift
    "$binary" "$@" >"$room/$name"
    [ -s "$room/$name" ] || exit 2
    if [ "$(tail -n 1 -- "$picture" 2>/dev/null)" != "$(mark "$room/$name")" ] && [ -n "$writes" ]; then
        write "$room/$name" "$picture"
    fi
    if [ "$(tail -n 1 -- "$picture" 2>/dev/null)" = "$(mark "$room/$name")" ]; then
        passed=$((passed + 1))
    else
        failed=$((failed + 1))
        echo "old: $picture"
    fi
}

for program in programs/*.u; do
    look "$(basename -- "$program" .u)" draw "$program"
done
for source in programs/*.ul; do
    name=$(basename -- "$source" .ul)
    [ -e "programs/$name.u" ] || look "$name" draw "$source"
done
look sum_run draw programs/sum.u 3
look two_writers_run draw programs/two_writers.u 0
look factorial_run draw programs/factorial.u 1
look fibonacci_run draw programs/fibonacci.u 3
look gcd_run draw programs/gcd.u 7
look nested_run draw programs/nested.u 1
look no_writer_run draw programs/no_writer.u 0
look producer_run draw programs/producer.u 1
look wavefront_run draw programs/wavefront.u 1
look sum_world world programs/sum.u 3 --seed 11097 --events 28 --draw
echo "$passed passed, $failed failed"
[ "$failed" -eq 0 ]
