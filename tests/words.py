#!/usr/bin/env python3
"""Lists the names of public types that stand in two crates, and fails on one that is not allowed below.

One word is to mean one thing in the repository. A name may stand twice if both mean the same in their crates (a read
error, a refusal), or if the two crates have nothing to do with each other and the name is the field's (a token of a
source, a token of the machine). --specs lists the names of definitions too. The last line is 'N passed, M failed'.
"""
import collections
import pathlib
import re
import sys

TOP = pathlib.Path(__file__).resolve().parent.parent
TYPE = re.compile(r"^\s*pub(?:\(crate\))? (?:struct|enum|trait|type) (\w+)", re.MULTILINE)
SPEC = re.compile(r"^(?:abbrev pub|unfoldable pub|pub record|pub data) (?:record |data )?([\w-]+)", re.MULTILINE)
# The same thing in each crate, said of what that crate reads, refuses or writes.
ALIKE = "Call ReadError Refused Ended Ending Expected Fault LineFault Row Saved Test Told Unwritten Words Wanted Stuck Kind Way".split()
# Words of the notation's reader and compiler, which no machine knows, and the same words of the machine.
OF_SOURCES = "Breach Entry Event Form Found Frame Link Mark Named Node Origin Outcome Part Rule Role Source Spot Step Token".split()


def names(pattern, files):
    """The crates in which each name stands."""
    found = collections.defaultdict(set)
    for path in files:
        for name in pattern.findall(path.read_text(encoding="utf-8")):
            found[name].add(path.relative_to(TOP / "crates").parts[0])
    return {name: sorted(crates) for name, crates in sorted(found.items())}


def main():
    failed = 0
    types = names(TYPE, (it for it in TOP.glob("crates/*/src/**/*.rt") if "u_tests" not in str(it)))
    for name, crates in types.items():
        if len(crates) > 1 and name not in ALIKE + OF_SOURCES:
            failed += 1
            print(f"{name} stands in {', '.join(crates)}")
    if "--specs" in sys.argv[1:]:
        for name, crates in names(SPEC, TOP.glob("crates/*/specs/*.antt")).items():
            if len(crates) > 1:
                print(f"definition {name}: {', '.join(crates)}")
    print(f"{len(types) - failed} passed, {failed} failed")
    return 1 if failed else 0


if __name__ == "__main__":
    sys.exit(main())
