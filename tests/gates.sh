#!/usr/bin/env bash
# Tries the tests of u_tests_replicas on wrong bodies of u_fleet and u_share that their headlines let through:
# tests/gates/TEST/NAME.edit is a change of the form of the edits in must-fail, with paths below crates/, with which
# TEST has to fail. Without a change each TEST has to pass. It runs the sources by `rt try`, two minutes or more for
# each change, and is no part of the gate. The last line is 'N passed, M failed'.
. "$(dirname -- "${BASH_SOURCE[0]}")/common.sh" || exit 2
cd -- "$top" || exit 2

# Runs the tests of a copy of the crates, changed by the edit, if there is one, and leaves what they say in $temp/said.
run_tests() {
    rm -rf -- "$temp/crates"
    copy_crates "$temp" crates.txt HANDLES
    [ -z "${1-}" ] || tests/apply_edit.py "$1" "$temp/crates" || exit 1
    (cd -- "$temp/crates/u_tests_replicas" && rt try --test) >"$temp/said" 2>&1 </dev/null
}

# Counts one trial: whether it went as it has to, and what it is.
judge() {
    local wrong=''
    [ "$1" -eq 0 ] && echo "ok: $2" || wrong="not so:"$'\n'"$(tail -n 5 -- "$temp/said")"
    count "$2" "$wrong"
}

# The tests pass on the sources as they are.
run_tests
for folder in tests/gates/*/; do
    test=$(basename -- "$folder")
    grep -q "^test .*::$test \.\.\. ok" "$temp/said"
    judge $? "$test passes"
done

# Each fails on the wrong body that it is for, and the tests run to their end.
for edit in tests/gates/*/*.edit; do
    test=$(basename -- "$(dirname -- "$edit")")
    run_tests "$edit"
    grep -q '^test result:' "$temp/said" && ! grep -q "^test .*::$test \.\.\. ok" "$temp/said"
    judge $? "$test fails with $(basename -- "$edit" .edit)"
done
finish
