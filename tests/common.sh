# Sourced by the scripts that test: the top of the repository, the program that is tried, a folder that goes as the
# script ends, and the counts.
set -u
export LC_ALL=C

top=$(cd -P -- "$(dirname -- "${BASH_SOURCE[0]}")/.." && pwd) || exit 2
binary=${U_BINARY:-$top/crates/u/out/u}
temp=$(mktemp -d) || exit 2
trap 'rm -rf -- "$temp"' EXIT
passed=0 failed=0

# Says that the program is not built, if it is not, and ends the script with one failure.
need_program() {
    [ ! -x "$binary" ] || return 0
    echo "$binary is not there: build it first, by ./u --prove or by rt ci" >&2
    failed=1
    finish
}

# Counts a test of that name, which passed if nothing is said to be wrong with it.
count() {
    if [ -z "$2" ]; then
        passed=$((passed + 1))
    else
        failed=$((failed + 1))
        printf 'FAILED: %s\n%s\n' "$1" "$(sed 's/^/  /' <<<"$2")"
    fi
}

# Counts whether two texts are the same.
expect_same() {
    count "$1" "$(diff <(printf '%s\n' "$2") <(printf '%s\n' "$3"))"
}

# Copies the crates, without what was built of them, and further files to a folder.
copy_crates() {
    tar -C "$top" --exclude=out --exclude='*.bazel' -cf - crates "${@:2}" | tar -C "$1" -xf - || exit 2
}

# Microseconds since some time.
now() {
    printf '%s' "${EPOCHREALTIME/[.,]/}"
}

# Says how many tests passed and failed, and ends the script.
finish() {
    echo "$passed passed, $failed failed"
    exit $((failed > 0))
}
