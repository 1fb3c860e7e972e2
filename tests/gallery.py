#!/usr/bin/env python3
"""Runs the sources of the folder programs, and compares what comes with other programs for the same.

Of each source and argument: the answer or the verdict that stands in this file; what tests/notation.py says comes of
it; and, if a program of the same name is written by hand, its verdict and answer, and at most 1.15 times its firings,
and no more than its firings in the mean of all. Each source is determinate. A page of docs/programs that names a
source shows it. Each source of tests/sources/refused.txt is refused with the line that stands above it, or allowed,
or has the answer, by `u` and by tests/notation.py, and these lines have all texts of docs/NOTATION.md. The last line
is 'N passed, M failed'. U_BINARY is the program that is run.
"""
import collections
import glob
import os
import re
import sys

from running import LIMITS, TOP, call, finish, need_program, number_word
from sources.checking import check
from sources.evaluating import evaluate
from sources.tokens import Refused

MOST, MEAN = 1.15, 1.0
counts = collections.Counter()
# For each source what comes of arguments: an answer, which a plain program of another text gave, or a verdict. The last
# argument is that of which the firings are compared.
PROGRAMS = {
    "double": {2 ** 63 - 1: "faulted", -3: -6, 0: 0, 4: 8},
    "sum": {-1: 0, 0: 0, 1: 1, 3: 6, 100: 5050},
    "factorial": {21: "faulted", 64: "faulted", -1: 1, 0: 1, 1: 1, 5: 120, 20: 2432902008176640000},
    "fibonacci": {-1: -1, 0: 0, 1: 1, 2: 1, 9: 34, 15: 610},
    "gcd": {-(2 ** 63): -1, 0: 0, 7: 7, 252105: 21, 999: 999, 987610: 1},
    "nested": {-1: 0, 0: 0, 1: 1, 4: 20, 10: 220},
    "no_writer": {0: "none"},
    "two_writers": {0: "clashed"},
    "producer": {0: 0, 1: 1, 5: 55, 20: 2870},
    "wavefront": {0: "faulted", 1: 1, 2: 2, 4: 20, 10: 48620},
    "matrices": {0: 0, 1: 0, 2: 2, 4: 80, 8: 2688},
    "ackermann": {0: 3, 1: 5, 2: 7, 4: 11},
    "search": {-2: "faulted", 0: 0, 1: 1, 2: 2, 16: 4, 17: 5, 50: 8},
    "sieve": {1: 0, 2: 1, 10: 4, 30: 10, 100: 25},
    "product": {0: 0, 1: 0, 3: 18, 8: 2688},
    "subsequence": {0: 0, 1: 1, 5: 3, 12: 7},
    "merge_sort": {0: 0, 1: 0, 2: 74, 7: 1495, 32: 34932},
    "collatz": {0: 0, 1: 0, 5: 7, 30: 111},
    "dot": {0: 0, 1: 0, 2: 2, 7: 112, 64: 87360},
    "knapsack": {0: 0, 1: 0, 7: 17, 20: 30},
    "queens": {0: 1, 1: 1, 4: 2, 6: 4},
}
# The texts of errors as docs/NOTATION.md has them, without what differs from source to source.
FORMS = (
    ("`", ""),
    (r".*a (number|truth value|procedure|structure) expected, .*", "a number expected, a truth value found"),
    (r"^(?!a number expected, a truth).* expected, .*", "X expected, Y found"),
    (r"\d+ given", "M given"), (r"\d+ arguments?", "N arguments"), (r"line \d+", "line N"),
    (r"^(loop variable|second next) \w+", r"\1 x"),
    (r"begins as a .* and goes on as a .*", "begins as a number and goes on as a truth value"),
    (r"^\w+ (is |of |begins )", r"x \1"), (r"^\w+ takes N", "f takes N"),
)


def expect(what, wanted, got):
    counts[wanted == got] += 1
    if wanted != got:
        print(f"FAILED: {what}: {got}, and not {wanted}")


def read(path):
    with open(f"{TOP}/{path}", encoding="utf-8") as file:
        return file.read()


def run(path, argument):
    """The verdict of a run, and how many firings it has."""
    report = call(["run", f"{TOP}/{path}", number_word(argument), "--firings", "1000000"]).out.splitlines()
    return (report[-1][len("verdict "):], int(report[1].split(" ")[1])) if report else ("nothing", 0)


def meant(source, argument):
    """The verdict that the evaluator has."""
    outcome = evaluate(check(source.encode()), argument, 10 ** 8)
    return f"answer {outcome.answer}" if outcome.verdict == "answer" else outcome.verdict


def look_at_program(name, answers):
    """Returns how many times as many firings a source has as the program by hand, where there is one."""
    path = f"programs/{name}.ul"
    program = call(["compile", f"{TOP}/{path}"]).out
    promises = call(["check", "stdin", "--determinate"], program).out.splitlines()[1:]
    expect(f"{name} is determinate", ["determinate"], promises)
    is_by_hand = os.path.exists(f"{TOP}/{path[:-1]}")
    for argument, answer in answers.items():
        verdict = answer if isinstance(answer, str) else f"answer {answer}"
        expect(f"{name} of {argument}", verdict, run(path, argument)[0])
        expect(f"{name} of {argument} by its meaning", verdict, meant(read(path), argument))
        if is_by_hand:
            expect(f"{name} of {argument} by hand", verdict, run(path[:-1], argument)[0])
    if not is_by_hand:
        return None
    firings, by_hand = (run(it, argument)[1] for it in (path, path[:-1]))
    expect(f"{name}: {firings} firings are not many more than {by_hand}", True, firings <= MOST * by_hand)
    return firings / by_hand


def look_at_page(name):
    """Looks whether the page that names a source shows it, indented."""
    page = f"docs/programs/{name}.md"
    if os.path.exists(f"{TOP}/{page}") and f"programs/{name}.ul" in read(page):
        lines = [f"    {line}".rstrip() for line in read(f"programs/{name}.ul").splitlines()]
        expect(f"{page} shows the source", True, "\n".join(lines) + "\n\n" in read(page))


def told_sources():
    """The line and the source of each case of tests/sources/refused.txt."""
    for case in re.split(r"\n(?=u: |allowed\n|answer )", read("tests/sources/refused.txt"))[1:]:
        line, *source = case.split("\n")
        text = "\n".join(row[4:] for row in source if row.startswith("    "))
        yield line, re.sub(r"<(\d+) TIMES (.*?)>", copies, text)


def copies(found):
    """So many copies of a text, with their numbers."""
    return "".join(found[2].replace("@", str(number)) for number in range(int(found[1])))


def look_at_source(line, source):
    """Compares the line of a source, why it is refused or `allowed` or its answer, with what is said of it."""
    made = call(["compile", "stdin"], source)
    if line.startswith("answer "):
        answer, argument = line.split(" of ")
        report = call(["run", "stdin", argument], made.out).out.splitlines()
        expect(f"the answer of {source[:200]}", [f"verdict {answer}"], report[-1:])
        expect(f"the meaning of {source[:200]}", answer, meant(source, int(argument)))
        return
    said = "allowed" if made.status == 0 else made.error.rstrip("\n")
    expect(f"what is said of {source[:200]}", (line, line != "allowed"), (said, made.out == ""))
    try:
        check(source.encode())
        plain = line if line.endswith(LIMITS) else "allowed"
    except Refused as refused:
        plain = f"u: {refused}"
    expect(f"what the plain checker says of {source[:200]}", line, plain)


def text_of(line):
    for form, text in FORMS:
        line = re.sub(form, text, line)
    return line


def look_at_sources():
    told = set()
    for line, source in told_sources():
        look_at_source(line, source)
        if line.startswith("u: "):
            told.add(text_of(line.split(": ", 2)[2]))
    rows = [row for row in read("docs/NOTATION.md").split("## Errors")[1].split("\n## ")[0].splitlines()
            if row.startswith("| `")]
    texts = {text_of(text) for row in rows for text in re.findall(r"`([^`]*)`", row.split("|")[1])}
    expect("the texts of docs/NOTATION.md and those of refused sources", sorted(texts), sorted(told))


def main():
    need_program()
    found = sorted(os.path.basename(path)[:-3] for path in glob.glob(f"{TOP}/programs/*.ul"))
    expect("the sources of the folder programs", sorted(PROGRAMS), found)
    ratios = [look_at_program(name, answers) for name, answers in PROGRAMS.items()]
    for name in PROGRAMS:
        look_at_page(name)
    look_at_sources()
    ratios = [ratio for ratio in ratios if ratio is not None]
    expect("the mean of the firings beside those by hand is not more than 1", True, sum(ratios) <= MEAN * len(ratios))
    finish(counts[True], counts[False])


if __name__ == "__main__":
    sys.setrecursionlimit(100000)
    main()
