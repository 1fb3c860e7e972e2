#!/usr/bin/env python3
"""Runs the built program with surroundings that fail, damaged texts, and programs that are dear to check.

    tests/hostile.py [--seed S] [--damaged N] [--planted] [PART..]

calls    each allocation of the calls of machines, replicas, worlds, names and histories that the program
         u_refused makes is refused in turn, and pairs of them: a refused call is looked at and made again,
         and each run prints the same. The calls that take no memory make no allocation
memory   each allocation of a command is refused in turn, one a run: the run ends with `u: no memory` and
         status 5 and nothing on standard output, or just as one in which nothing is refused
writes   standard output takes a byte at a time, and fails at each byte in turn: what was written is a front
         of the output, and the run ends with `u: not written` and status 5
reads    input comes a byte at a time, and fails at each byte in turn: nothing is written, and the run ends
         with `u: not readable` and status 5
large    programs of up to 999 statements that are dear to check: `check --strict --determinate` and `explain`
         take at most a second of processor time
damaged  N programs, checkpoints, entries and lines of a bus that were changed at random: a status of the table,
         one named refusal or whole output, the same answer of a checkpoint and of a bus, and at most a second
         of processor time

Without a PART all are run. The library that refuses, cuts and fails is tests/memory/refuse.c. The program is the
built one, or U_BINARY, and that of `calls` crates/u_refused, or U_REFUSED. With --planted the program is not told
that a write or a read failed, as one is not that passes over the error: each test of `writes` and `reads` has to
fail. The last line is 'N passed, M failed'.
"""
import argparse
import collections
import os
import random
import re
import resource
import subprocess
import sys
import tempfile
from concurrent.futures import ThreadPoolExecutor

from running import BINARY, TOP, finish
from sources.making import damage

REFUSED_CALLS = os.environ.get("U_REFUSED", f"{TOP}/crates/u_refused/out/u_refused")
SAID = re.compile(rb"^(refused|call|allocations) .*\n", re.MULTILINE)
COUNT = re.compile(rb"^allocations (\d+)$", re.MULTILINE)
IN_CALL = re.compile(rb"^call \d+ had (\d+) to (\d+)$", re.MULTILINE)
# How many pairs of allocations are refused, and how far the second one is behind the first.
PAIRS, APART = 1000, 60
# How long a run may take by the clock, in seconds, and of a processor.
LIMIT, MOST_SECONDS = 60, 1.0
DOUBLE, SUM, WRITERS = "programs/double.u", "programs/sum.u", "programs/two_writers.u"
CHECKPOINT = b"u-history 1\nf -.main.1.1 3\nf -.main.2.1 3\nf -.main.3.1 3\nf -.main.4.1 0\nend 4\n"
BUS = b"f -.main.1.1 3\nf -.main.2.1 3\n\nf -.main.3.1 3\nf (-.main.L1.1).main.5.1 3\n"
ENTRY = b"t (-.main.L1.1).main.8.2 1 2"
NOTICE = re.compile(rb"u: line \d+ (too long|not allowed|not of this job|cut short)\n")
REFUSED = b"u-program 1\nblock main\n1 0 begin -> 2.1\n2 0 add -> 3.1\n3 0 end ->\n"
PIPED = b"u-program 1\nblock main\n1 0 begin -> 2.1\n2 0 end ->\n"
# How a run fails: what, by which setting of the library, and what it says then.
FAILING = {"writes": ("byte", "FAIL_WRITE", b"u: not written\n"), "reads": ("read", "FAIL_READ", b"u: not readable\n")}
counts = collections.Counter()


class Ended:
    """How a run ended: its status, what it wrote, and how many allocations it had, in all and in each call."""

    def __init__(self, ran):
        self.status, self.out = ran.returncode, ran.stdout
        self.error = SAID.sub(b"", ran.stderr)
        counted = COUNT.search(ran.stderr)
        self.allocations = int(counted[1]) if counted else 0
        self.in_calls = [int(to) - int(first) + 1 for first, to in IN_CALL.findall(ran.stderr)]

    def is_same(self, other):
        return (self.status, self.out, self.error) == (other.status, other.out, other.error)

    def __str__(self):
        return f"status {self.status}, output {self.out[-200:]}, error {self.error[-200:]}"


def bound():
    resource.setrlimit(resource.RLIMIT_CPU, (int(MOST_SECONDS) + 1, int(MOST_SECONDS) + 1))


def run(words, given=b"", library=None, bounded=False, program=BINARY, **settings):
    """A run of the program, with the library's settings."""
    how = dict(os.environ, **{name: str(value) for name, value in settings.items()})
    if library:
        how["LD_PRELOAD"] = library
    return Ended(subprocess.run([program, *words], input=given, capture_output=True, env=how, cwd=TOP, timeout=LIMIT,
                                preexec_fn=bound if bounded else None))


def tally(name, count, wrong):
    """Counts a test, which made so many runs, and shows up to three that ended as none may."""
    passed = count > 0 and not wrong
    counts[passed] += 1
    how = "each as it must" if passed else f"{len(wrong)} of them as none may"
    print(f"{name}: {count} runs, {how} be", flush=True)
    for what, ended in wrong[:3]:
        print(f"    {what}: {ended}")


def side_by_side(numbers, one):
    """What `one` returns for each of the numbers, with as many runs side by side as there are processors."""
    with ThreadPoolExecutor(os.cpu_count()) as pool:
        return zip(numbers, pool.map(one, numbers))


def all_wrong(what, count, one, is_right):
    """Of so many runs, which `one` makes of their numbers, those that ended as none may."""
    runs = side_by_side(range(1, count + 1), one)
    return [(f"{what} {number}", ended) for number, ended in runs if not is_right(number, ended)]


def commands(room):
    """Command lines, and what stands on standard input."""
    for words in (
        [], ["--help"], ["run"],
        ["check", DOUBLE, "--strict", "--determinate"], ["check", f"{room}/refused"],
        ["explain", DOUBLE, "--strict"], ["explain", f"{room}/refused"],
        ["lift", DOUBLE],
        ["draw", DOUBLE], ["draw", DOUBLE, "4"], ["draw", WRITERS, "0", "a 20"],
        ["run", "tests/files/two_arguments.u", "7"], ["run", "programs/factorial.u", "2", "--firings", "30"],
        ["run", DOUBLE, "4"], ["run", SUM, "3"], ["run", WRITERS, "0"], ["run", DOUBLE, "01"],
        ["save", SUM, "2", "--firings", "9"],
        ["restore", SUM, "3", f"{room}/checkpoint", "--firings", "9"],
        ["trace", DOUBLE, "4", "a 8", "--firings", "3"], ["trace", DOUBLE, "4", "a 9"],
        ["blame", WRITERS, "0", "-.main.10.1", "1"],
        ["waits", SUM, "2", "--firings", "9"],
        ["world", DOUBLE, "4", "--events", "20", "--firings", "3"],
        ["fleet", DOUBLE, "4"], ["fleet", SUM, "3", "--workers", "2", "--rounds", "8"],
    ):
        yield words, b""
    yield ["run", "stdin", "4"], PIPED
    yield ["share", SUM, "3", "--burst", "5"], BUS


def is_share(words):
    return words[:1] == ["share"]


def ends_without_memory(words, ended):
    """Whether the run ended for want of memory, and wrote nothing, or, of a member, lines and notices before it."""
    faults = [b"u: no memory\n"]
    if words[:1] == ["fleet"]:
        faults += [b"u: no thread\n", b"u: no reader\n"]
    if is_share(words):
        return ended.status == 5 and ended.error.endswith(faults[0])
    return ended.status == 5 and ended.error in faults and ended.out == b""


def refuse_calls(asked):
    """Refuses each allocation of the calls, and pairs that lie near each other, which a call made again meets."""

    def refused(numbers):
        return run([], library=asked.library, program=REFUSED_CALLS, FAIL_AT=numbers)

    whole = refused("0")
    with open(f"{TOP}/crates/u_refused/stdout", "rb") as file:
        wrong = [] if whole.status == 0 and whole.out == file.read() else [("nothing refused", whole)]
    tally("calls: nothing refused", 1, wrong)
    wrong = [] if whole.in_calls == [0] else [(f"allocations in calls {whole.in_calls}", whole)]
    tally("calls: those that take no memory", 1, wrong)
    chance = random.Random(asked.seed)
    singles = [str(number) for number in range(1, whole.allocations + 1)]
    firsts = [chance.randint(1, whole.allocations) for _ in range(PAIRS)]
    pairs = [f"{first},{first + chance.randint(1, APART)}" for first in firsts]
    for name, numbers in (("each allocation", singles), ("pairs of allocations", pairs)):
        wrong = [(at, ended) for at, ended in side_by_side(numbers, refused) if not ended.is_same(whole)]
        tally(f"calls: {name}", len(numbers), wrong)


def refuse_memory(asked):
    """Refuses each allocation. A fleet's allocations differ from run to run, so it gets half as many again."""
    for words, given in commands(asked.room):
        whole = run(words, given, asked.library, FAIL_AT=0)
        count = whole.allocations * 3 // 2 if words[:1] == ["fleet"] else whole.allocations
        wrong = all_wrong("allocation", count, lambda number: run(words, given, asked.library, FAIL_AT=number),
                          lambda _, ended: ended.is_same(whole) or ends_without_memory(words, ended))
        tally(f"memory: {shown(words, asked.room)}", count, wrong)


def fail_bytes(asked, part, words, given, count, is_front):
    """Lets bytes go one at a time, and fails at each in turn. What was written by then has to be a front of all."""
    what, setting, fault = FAILING[part]
    whole, slow = run(words, given), run(words, given, asked.library, SHORT=1)

    def fail(number):
        return run(words, given, asked.library, SHORT=1, HIDDEN=int(asked.planted), **{setting: number})

    def is_right(number, ended):
        return ended.status == 5 and ended.error.endswith(fault) and is_front(number, whole.out, ended.out)

    wrong = [] if slow.is_same(whole) else [("a byte at a time", slow)]
    wrong += all_wrong(what, count, fail, is_right)
    tally(f"{part}: {shown(words, asked.room)}", count + 1, wrong)


def fail_writes(asked):
    """Lets standard output take a byte at a time, and fail at each byte."""
    for words, given in commands(asked.room):
        count = len(run(words, given).out)
        if count:
            fail_bytes(asked, "writes", words, given, count, lambda number, whole, out: out == whole[:number - 1])


def fail_reads(asked):
    """Lets input come a byte at a time, and fail at each byte."""
    double, total = (os.path.getsize(f"{TOP}/{program}") for program in (DOUBLE, SUM))
    for words, given, count in (
        (["run", SUM, "3"], b"", total),
        (["check", DOUBLE], b"", double),
        (["run", "stdin", "4"], PIPED, 50),
        (["restore", DOUBLE, "4", f"{asked.room}/double"], b"", double + 18),
        (["share", DOUBLE, "4", "--follow"], b"f -.main.1.1 4\nf -.main.2.1 4 4\n", double + 33),
    ):
        fail_bytes(asked, "reads", words, given, count,
                   lambda _, whole, out: whole.startswith(out) if is_share(words) else out == b"")


def shown(words, room):
    return " ".join(words).replace(room, "TEMP") or "the stored run"


def damaged_run(chance, room, number):
    """A run over a damaged text, and whether it ended as it may."""
    kind = chance.choice(("check", "explain", "run", "restore", "trace", "share"))
    text = {"restore": CHECKPOINT, "trace": ENTRY, "share": BUS}.get(kind)
    if text is None:
        with open(f"{TOP}/programs/{chance.choice(sorted(os.listdir(f'{TOP}/programs')))}", "rb") as file:
            text = file.read()
    text = damage(text.decode(), chance)
    words = [kind, "stdin"] + ["3", "--firings", "200"] * (kind == "run")
    if kind == "restore":
        words = [kind, SUM, "3", f"{room}/damaged{number}"]
        with open(words[-1], "wb") as file:
            file.write(text)
    elif kind == "trace":
        words = [kind, SUM, "3", "--", text.replace(b"\0", b"")]
    elif kind == "share":
        words = [kind, SUM, "3", "--follow", "--report", "/dev/stdout"]
    ended = run(words, text, bounded=True)
    same = ended.status == 0 and ended.out.endswith(b"\nanswer 6\nverdict answer 6\n")
    if kind == "share":
        return text, ended, same and not NOTICE.sub(b"", ended.error)
    refused = ended.status in (2, 3) and ended.out == b"" and re.fullmatch(rb"u: [^\n]+ [^\n]+\n", ended.error)
    told = ended.status in (0, 3, 4) + (2,) * (kind == "explain") and not ended.error
    usage = kind == "trace" and ended.status == 1 and b"UTF-8" in ended.error
    return text, ended, refused or usage or (same if kind == "restore" else told)


def damage_texts(asked):
    """Runs over that many damaged texts."""

    def one(number):
        return damaged_run(random.Random(f"{asked.seed} {number}"), asked.room, number)

    runs = side_by_side(range(asked.damaged), one)
    wrong = [(f"number {number}, {text[:400]}", ended) for number, (text, ended, right) in runs if not right]
    tally(f"damaged: seed {asked.seed}", asked.damaged, wrong)


def program_text(statements, loops=()):
    """A program of one block, whose statements are given in their order by region, kind and lists."""
    lines = [f"{number} {statement}" for number, statement in enumerate(statements, 1)]
    return "\n".join(["u-program 1", "block main", *loops, *lines, ""]).encode()


def to(*ports):
    """A list of destinations, which stand in order, each once."""
    return "".join(f" {number}.{port}" for number, port in sorted(set(ports)))


def chain_backwards():
    """Each `pass` sends to the one before it."""
    return program_text(["0 begin -> 999.1", "0 end ->", *(f"0 pass -> {number - 1}.1" for number in range(3, 1000))])


def conditionals():
    """Conditionals one after another, whose sides meet."""
    groups = []
    for first in range(2, 998, 4):
        side = f"0 pass ->{to((first + 3, 1))}"
        join = f"0 pass ->{to((first + 4, 1), (first + 4, 2 if first + 4 < 998 else 1))}"
        groups += [f"0 switch ->{to((first + 1, 1))} /{to((first + 2, 1))}", side, side, join]
    return program_text(["0 begin -> 2.1 2.2", *groups, "0 end ->"])


def switches_to_many():
    """Each `switch` sends to both ports of the next 7 if true, and of the 7 behind these if false."""

    def from_place(first):
        return to((999, 1), *((number, port) for number in range(first, min(first + 7, 999)) for port in (1, 2)))

    switches = [f"0 switch ->{from_place(number + 1)} /{from_place(number + 8)}" for number in range(2, 999)]
    return program_text(["0 begin -> 2.1 2.2", *switches, "0 end ->"])


def switches_to_one():
    """Each `switch` controls the next one, and all send to one port."""
    switches = [f"0 switch ->{to((number + 1, 2), (999, 1))} /{to((number + 1, 1))}" for number in range(2, 998)]
    return program_text(["0 begin -> 2.1 2.2", *switches, "0 switch -> 999.1 /", "0 end ->"])


def leaves_of_one_loop():
    """Switches, and behind them 300 `enter` of one loop, and 300 `leave`, each of which sends to 15 statements."""
    enters, lasts, leaves = 342, 642, 661
    switches = [f"0 switch ->{to((number + 3, 2), (enters + number % 300, 1))} /{to((number + 3, 1))}"
                for number in range(339)]
    enter = [f"0 enter 1 ->{to((lasts + number % 19, 1))}" for number in range(300)]
    last = [f"1 last ->{to(*((number, 1) for number in range(leaves + first, leaves + 300, 19)))}"
            for first in range(19)]
    leave = [f"1 leave ->{to(*((2 + (number * 15 + place) % 340, 1) for place in range(15)))}" for number in range(300)]
    statements = ["0 begin -> 2.1 2.2", *switches, "0 switch -> 961.1 /", *enter, *last, *leave, "0 end ->"]
    return program_text(statements, ["loop 1 0"])


def check_large(asked):
    """Programs that are dear to check."""
    for made in (chain_backwards, conditionals, switches_to_many, switches_to_one, leaves_of_one_loop):
        text, wrong = made(), []
        for words in (["check", "stdin", "--strict", "--determinate"], ["explain", "stdin", "--strict"]):
            ended = run(words, text, bounded=True)
            if ended.status != 0 or ended.error:
                wrong.append((" ".join(words), ended))
        tally(f"large: {made.__name__.replace('_', ' ')}", 2, wrong)


def built_library(room):
    """The library that refuses, or None if it can't be built."""
    library = f"{room}/refuse.so"
    source = f"{TOP}/tests/memory/refuse.c"
    words = ["cc", "-std=c11", "-O2", "-Wall", "-shared", "-fPIC", "-o", library, source, "-ldl"]
    return library if subprocess.run(words).returncode == 0 else None


def make_files(room):
    for name, text in (("checkpoint", CHECKPOINT), ("refused", REFUSED), ("double", b"u-history 1\nend 0\n")):
        with open(f"{room}/{name}", "wb") as file:
            file.write(text)


PARTS = {"calls": refuse_calls, "memory": refuse_memory, "writes": fail_writes, "reads": fail_reads,
         "large": check_large, "damaged": damage_texts}


def main():
    parser = argparse.ArgumentParser(description=__doc__.split("\n")[0])
    parser.add_argument("--seed", type=int, default=1)
    parser.add_argument("--damaged", type=int, default=2000, metavar="N")
    parser.add_argument("--planted", action="store_true")
    parser.add_argument("parts", nargs="*", metavar="PART", help=", ".join(PARTS))
    asked = parser.parse_args()
    parts = asked.parts or PARTS
    with tempfile.TemporaryDirectory() as asked.room:
        make_files(asked.room)
        asked.library = built_library(asked.room)
        programs = [BINARY, REFUSED_CALLS] if "calls" in parts else [BINARY]
        if asked.library is None or not all(os.access(it, os.X_OK) for it in programs):
            print(f"{' or '.join(programs)} or the library is not built", file=sys.stderr)
            finish(0, 1)
        for name, look in PARTS.items():
            if name in parts:
                look(asked)
    finish(counts[True], counts[False])


if __name__ == "__main__":
    main()
