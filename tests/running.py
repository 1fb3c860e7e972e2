"""What the scripts share: the built program, runs of it, and the count of what passed and what failed."""
import argparse
import collections
import concurrent.futures
import os
import random
import resource
import subprocess
import sys
import threading

TOP = os.path.dirname(os.path.dirname(os.path.abspath(__file__)))
BINARY = os.environ.get("U_BINARY", os.path.join(TOP, "crates/u/out/u"))
# What the plain checker doesn't know of: how large a procedure's block is.
LIMITS = ("more than 999 statements in a procedure", "more than 99 loops in a procedure")

# How a run ended: its status, what it wrote, and the seconds of processor time that it took.
Ended = collections.namedtuple("Ended", "status out error seconds")


class Wrong(Exception):
    """What is wrong with what the program says."""


def spent():
    used = resource.getrusage(resource.RUSAGE_CHILDREN)
    return used.ru_utime + used.ru_stime


def call(words, given=""):
    """A run of the program with this standard input, text or bytes."""
    given, before = given.encode() if isinstance(given, str) else given, spent()
    try:
        done = subprocess.run([BINARY, *words], input=given, capture_output=True, close_fds=False, timeout=600)
    except subprocess.TimeoutExpired:
        raise Wrong(f"{words[0]} does not end") from None
    out, error = (text.decode("utf-8", "replace") for text in (done.stdout, done.stderr))
    return Ended(done.returncode, out, error, spent() - before)


def number_word(number):
    return str(number).replace("-", "n")


def need_program():
    """Ends the script if the program is not built."""
    if not os.access(BINARY, os.X_OK):
        print(f"{BINARY} is not there: build it first, by ./u --prove or by rt ci", file=sys.stderr)
        finish(0, 1)


def finish(passed, failed):
    print(f"{passed} passed, {failed} failed")
    sys.exit(1 if failed else 0)


def in_deep_thread(function, *given):
    """What a function returns in a thread with a large stack: a long sum is a deep tree."""
    sys.setrecursionlimit(1000000)
    threading.stack_size(512 << 20)
    with concurrent.futures.ThreadPoolExecutor(1) as pool:
        return pool.submit(function, *given).result()


def judge_some(kinds, judge, seed, places):
    """The counts of the random texts of these numbers, and what is wrong with the first few."""
    counts, wrong = collections.Counter(), []
    for place in places:
        for kind, make in kinds.items():
            text, argument = make(random.Random(f"{seed} {place}"))
            try:
                judge(text, argument, counts)
                counts["passed"] += 1
            except Wrong as fault:
                counts["failed"] += 1
                shown = text if isinstance(text, str) else text.decode("latin-1")
                wrong.append(f"{kind} {place} of seed {seed}, with {argument}: {fault}\n{shown}")
    return counts, wrong[:3]


def judge_random(head, kinds, judge, least, count):
    """Makes random texts of these kinds and judges them, side by side. `least` has the share in a hundred that
    has to be in each class."""
    parser = argparse.ArgumentParser(description=head.split("\n")[0])
    parser.add_argument("--seed", type=int, default=1, help="another seed makes others")
    parser.add_argument("--programs", type=int, default=count, help="how many of each kind")
    asked = parser.parse_args()
    need_program()
    counts, wrong, jobs = collections.Counter(), [], os.cpu_count()
    with concurrent.futures.ProcessPoolExecutor(jobs) as pool:
        parts = [pool.submit(in_deep_thread, judge_some, kinds, judge, asked.seed, range(first, asked.programs, jobs))
                 for first in range(jobs)]
        for part in parts:
            some, faults = part.result()
            counts.update(some)
            wrong += faults
    for fault in wrong[:3]:
        print(f"FAILED: {fault}")
    for name in sorted({*counts, *least} - {"passed", "failed"}):
        print(f"{counts[name]:7d} {name}")
    few = [name for name, share in least.items() if counts[name] * 100 < share * asked.programs]
    for name in few:
        print(f"FAILED: of {asked.programs} only {counts[name]} are: {name}")
    finish(counts["passed"], counts["failed"] + len(few))
