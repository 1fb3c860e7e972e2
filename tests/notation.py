#!/usr/bin/env python3
"""Evaluates a source of the notation as docs/NOTATION.md says, with nothing of the program `u`.

    tests/notation.py FILE          says `source`, or why the file is none
    tests/notation.py FILE ARG      says what comes of it for an argument, in the words of the report of a run

ARG is a number, with `n` for a minus. The exit status is 0 for one answer, 2 for a file that is refused, 3 for
another verdict and 4 where the evaluation would take more than ten million steps.
"""
import sys

from running import in_deep_thread
from sources.checking import check
from sources.evaluating import TooLong, evaluate
from sources.tokens import Refused


def say(outcome):
    """Prints an outcome, and returns the exit status."""
    if outcome.answer is not None:
        print(f"answer {outcome.answer}")
    for kind in sorted(outcome.faults):
        print(f"fault {kind}" + ("" if kind in ("kind", "deep") else f" {outcome.faults[kind]}"))
    print(f"verdict answer {outcome.answer}" if outcome.verdict == "answer" else f"verdict {outcome.verdict}")
    return 0 if outcome.verdict == "answer" else 3


def run(path, argument=None):
    try:
        with open(path, "rb") as file:
            procedures = check(file.read())
        if argument is not None:
            return say(evaluate(procedures, int(argument.replace("n", "-")), 10000000))
        print("source")
        return 0
    except Refused as refused:
        print(f"u: {refused}", file=sys.stderr)
        return 2
    except TooLong:
        print("too many steps", file=sys.stderr)
        return 4


if __name__ == "__main__":
    if len(sys.argv) not in (2, 3):
        sys.exit(__doc__)
    sys.exit(in_deep_thread(run, *sys.argv[1:]))
