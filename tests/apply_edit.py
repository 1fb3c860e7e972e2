#!/usr/bin/env python3
"""Applies an edit of the form of crates/NAME/must-fail to a crate's folder: tests/apply_edit.py EDIT FOLDER"""
import pathlib
import sys


def main(edit, folder):
    path, old = None, ""
    for line in pathlib.Path(edit).read_text(encoding="utf-8").splitlines():
        word, _, rest = line.partition(" ")
        if word == "file:":
            path = pathlib.Path(folder) / rest.strip()
        elif word == "old:":
            old = rest
        elif word == "new:":
            text = path.read_text(encoding="utf-8")
            if text.count(old) != 1:
                sys.exit(f"{edit}: {path} has not this once: {old}")
            path.write_text(text.replace(old, rest), encoding="utf-8")


if __name__ == "__main__":
    if len(sys.argv) != 3:
        sys.exit(__doc__)
    main(*sys.argv[1:])
