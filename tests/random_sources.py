#!/usr/bin/env python3
"""Makes random sources of the notation, and compares what `u` makes of each with what tests/notation.py says.

A source that is made whole passes if `u compile` writes a program that `u check --determinate` finds to be
determinate, and if a run of it ends with the verdict, the answer and the faults that the evaluation has: as many
of each kind, but for `kind` and `deep`, of which there are some in both or in neither. Where a cell clashes, only
that is compared. A source that was damaged passes if `u compile` refuses it with the line that the plain parser
and checker refuse it with, or else writes a program that is determinate. Nothing may take a second of processor
time. The last line is 'N passed, M failed'. The script fails too where few of the sources have an answer, faults
or a clash, or few of the damaged ones are still sources, since then it shows little.

    tests/random_sources.py [--seed S] [--programs N]

The same seed makes the same sources: N whole ones and N damaged ones. U_BINARY is the program that is run.
"""
import collections
import os
import re
import tempfile

import running
from running import LIMITS, Wrong, number_word
from sources.checking import check
from sources.evaluating import TooLong, evaluate
from sources.making import damage, make_source
from sources.tokens import Refused

# How many firings a run has at most, how many steps an evaluation, and how many seconds a command.
FIRINGS, STEPS, SECONDS = 20000, 200000, 1
ARGUMENTS = (0, 1, 2, 3, 5, -1, -2)
# The least share of the sources, in a hundred, that has to be in each class.
LEAST = {
    "whole, determinate": 95,
    "whole, an answer": 25,
    "whole, faults": 20,
    "whole, a clash": 1,
    "whole, neither fault nor answer": 1,
    "damaged, refused": 50,
    "damaged, still a source": 2,
}


def call(words, given=""):
    done = running.call(words, given)
    if done.seconds > SECONDS:
        raise Wrong(f"{words[0]} takes more than a second")
    return done


def refusal_of(path):
    """The line that refuses a source, or None if it has a program, which has to be determinate."""
    made = call(["compile", path])
    if made.status == 2 and not made.out and re.fullmatch(r"u: source line \d+ column \d+: .+\n", made.error):
        return made.error[len("u: "):-1]
    if made.status != 0 or made.error:
        raise Wrong(f"compile ends with {made.status}: {made.error}")
    said = call(["check", "stdin", "--determinate"], made.out)
    if said.status != 0 or said.out.splitlines()[1:] != ["determinate"]:
        raise Wrong(f"check ends with {said.status}: {said.error}{said.out}")
    return None


def compare(what, got, wanted):
    if got != wanted:
        raise Wrong(f"{what}: {got}, and not {wanted}")


def judge_run(path, procedures, argument, counts):
    """Compares a run of a source with its evaluation."""
    try:
        wanted = evaluate(procedures, argument, STEPS)
    except TooLong:
        wanted = None
    done = call(["run", path, number_word(argument), "--firings", str(FIRINGS)])
    report = done.out.splitlines()
    if done.status not in (0, 3, 4) or done.error:
        raise Wrong(f"run ends with {done.status}: {done.error}")
    if wanted is None or report[0] == "state paused":
        counts["whole, without an end"] += 1
        return
    verdict = report[-1].split(" ")[1]
    counts["whole, a clash"] += verdict == "clashed"
    compare("the verdict", verdict, wanted.verdict)
    if verdict == "clashed":
        if not any(line.startswith("cell ") for line in report):
            raise Wrong("a clash without a cell")
        return
    # The evaluation shows the length of a structure alone, and not the name of its maker.
    answers = [re.sub(r"^&.*#", "&#", line[len("answer "):]) for line in report if line.startswith("answer ")]
    compare("the answers", answers, [wanted.answer] if wanted.answer is not None else [])
    faults = collections.Counter(line.split(" ")[2] for line in report if line.startswith("fault "))
    for kind in {*faults, *wanted.faults}:
        counted = bool if kind in ("kind", "deep") else int
        compare(f"faults {kind}", counted(faults[kind]), counted(wanted.faults[kind]))
    counts["whole, faults"] += bool(faults)
    counts["whole, an answer"] += verdict == "answer"
    counts["whole, neither fault nor answer"] += verdict == "none"


def judge(source, argument, counts):
    """Judges a source: whole ones, which are text, are run, damaged ones are refused or still sources."""
    whole = isinstance(source, str)
    text = source.encode() if whole else source
    try:
        procedures, wanted = check(text), None
    except Refused as refused:
        procedures, wanted = None, str(refused)
    with tempfile.TemporaryDirectory() as folder:
        path = os.path.join(folder, "source.ul")
        with open(path, "wb") as file:
            file.write(text)
        refusal = refusal_of(path)
        if wanted is None and refusal is not None and refusal.endswith(LIMITS):
            counts["over a limit"] += 1
            return
        compare("what refuses it", refusal, wanted)
        if whole and refusal is not None:
            raise Wrong(f"a source that was made whole is refused: {refusal}")
        if whole:
            counts["whole, determinate"] += 1
            judge_run(path, procedures, argument, counts)
        else:
            counts["damaged, still a source" if refusal is None else "damaged, refused"] += 1


def make(chance):
    """A random source and an argument."""
    source = make_source(chance)
    return source, chance.choice(ARGUMENTS)


def make_damaged(chance):
    source, argument = make(chance)
    return damage(source, chance), argument


if __name__ == "__main__":
    running.judge_random(__doc__, {"source": make, "damaged source": make_damaged}, judge, LEAST, 2000)
