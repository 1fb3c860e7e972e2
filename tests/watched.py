#!/usr/bin/env python3
"""What the built program says of how far it is, where standard error is a terminal.

    tests/watched.py PROGRAM WORDS..

Runs the command behind a pseudo terminal, and stops it for two seconds in its midst, so that it works for
longer than two. Meanwhile it runs once more, with a pipe in the terminal's place. Prints what is wrong, a line
each, and nothing where nothing is.
"""
import contextlib
import os
import pty
import re
import signal
import subprocess
import sys
import time

LINE = re.compile(rb"u: (\d+) firings applied, (\d+) parked\r\n")
BEGUN = 0.2
STOPPED = 2.0


def read_all(end):
    """What was written behind the terminal, and when it came."""
    parts = []
    # At the end a read of the terminal fails.
    with contextlib.suppress(OSError):
        while part := os.read(end, 4096):
            parts.append((time.monotonic(), part))
    return parts


def watched(words):
    """Standard output, the status, and what came behind the terminal, with the seconds after which it came."""
    end, terminal = pty.openpty()
    begun = time.monotonic()
    program = subprocess.Popen(words, stdin=subprocess.DEVNULL, stdout=subprocess.PIPE, stderr=terminal)
    os.close(terminal)
    time.sleep(BEGUN)
    program.send_signal(signal.SIGSTOP)
    time.sleep(STOPPED)
    program.send_signal(signal.SIGCONT)
    parts = read_all(end)
    os.close(end)
    output = program.stdout.read()
    return output, program.wait(), [(at - begun, part) for at, part in parts]


def judge(words):
    plain = subprocess.Popen(words, stdin=subprocess.DEVNULL, stdout=subprocess.PIPE, stderr=subprocess.PIPE)
    output, status, parts = watched(words)
    wanted, error = plain.communicate(timeout=60)
    if error:
        yield f"with a pipe standard error has {error[:200]!r}"
    if (output, status) != (wanted, plain.returncode):
        yield f"behind a terminal the output or the status is another: {status}, {output[:200]!r}"
    text = b"".join(part for _, part in parts)
    numbers = [int(line[1]) for line in LINE.finditer(text)]
    if not numbers or LINE.sub(b"", text):
        yield f"the terminal has {text[:200]!r}"
    if numbers != sorted(set(numbers)):
        yield f"the numbers of firings are {numbers}"
    times = [at for at, _ in parts]
    if times and times[0] < 2:
        yield f"the first line came after {times[0]:.2f} seconds"
    if len(numbers) > 1 and times[-1] - times[0] < 0.9 * (len(numbers) - 1):
        yield f"{len(numbers)} lines came within {times[-1] - times[0]:.2f} seconds"


for wrong in judge(sys.argv[1:]):
    print(wrong)
