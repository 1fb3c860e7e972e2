#!/usr/bin/env python3
"""Writes the manual page of the program `u` from what its `--help` prints.

    share/manual.py PROGRAM >share/man/man1/u.1
"""
import re
import subprocess
import sys

ITEM = re.compile(r"  +(\S.*?)(?:  +(\S.*))?$")


def help_of(program, *command):
    """The paragraphs of what `--help` prints, each a list of lines."""
    said = subprocess.run([program, *command, "--help"], check=True, stdout=subprocess.PIPE, text=True).stdout
    return [it.split("\n") for it in said.strip("\n").split("\n\n")]


def plain(text):
    """The text for the formatter of manual pages, where a backslash and a hyphen say something else."""
    return text.replace("\\", "\\e").replace("-", "\\-")


def paragraph(lines):
    """A paragraph: items below a head that ends with a colon, or running text."""
    if not lines[0].endswith(":") or len(lines) == 1:
        return [".PP", *map(plain, lines)]
    found = [".PP", plain(lines[0])]
    for line in lines[1:]:
        word, said = ITEM.match(line).groups()
        found += [".TP", f".B {plain(word)}", plain(said or "")]
    return found


def section(head, paragraphs):
    found = [head]
    for lines in paragraphs:
        found += paragraph(lines)
    return found


def page(program):
    about, usage, *rest = help_of(program)
    version = subprocess.run([program, "--version"], check=True, stdout=subprocess.PIPE, text=True).stdout.strip()
    commands = next(it for it in rest if it[0] == "Commands:")
    lines = [
        '.\\" Written by share/manual.py from what u \\-\\-help prints.',
        f'.TH U 1 "" "{version}" "User Commands"',
        ".SH NAME",
        "u \\- checks and runs dataflow programs",
        ".SH SYNOPSIS",
        f".B {plain(usage[0].removeprefix('Usage: '))}",
    ]
    lines += section(".SH DESCRIPTION", [about, *rest])
    lines += [".SH COMMANDS"]
    for line in commands[1:]:
        told = help_of(program, line.split()[0])
        lines += section(f'.SS "{plain(told[1][0].removeprefix("Usage: "))}"', [told[0], *told[2:]])
    return "\n".join(lines) + "\n"


if __name__ == "__main__":
    if len(sys.argv) != 2:
        sys.exit(__doc__)
    sys.stdout.write(page(sys.argv[1]))
