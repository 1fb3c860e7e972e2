#!/usr/bin/env bash
# Tries the wrong bodies of crates by hand: the prover has to refuse each.
#
#   tests/wrong_bodies.sh NAME..      those of these crates
#   tests/wrong_bodies.sh             those of every crate
#
# crates/NAME/must-fail/*.edit are tried by the gate, *.edit.md by this alone, in a copy of the crates in
# which they have the gate's name. The last line is `rt must-fail`'s.
. "$(dirname -- "${BASH_SOURCE[0]}")/common.sh" || exit 2
copy_crates "$temp" crates.txt HANDLES
cd -- "$temp" || exit 2
for edit in crates/*/must-fail/*.edit.md; do mv -- "$edit" "${edit%.md}" || exit 2; done
rt must-fail "$@"
