#!/usr/bin/env python3
"""Says what is wrong with the pictures of runs, of stories and of worlds of a program.

A picture that `u draw FILE ARG` prints has to show the firings that `save` and `trace` print, what each of them
needs, and as many entries as `run` counts. One that `u world FILE ARG --draw` prints has to show, row by row, the
random events that the seed stands for, made here anew, with the ways of their messages; and the firings that it
counts have to be those that `world` counts.

    tests/drawn.py FILE

U_BINARY is the program that is run.
"""
import re
import sys

from running import call

RUNS = (("3", "60"), ("2", "2000"))
WORLDS = ((2, 1, 60), (3, 7, 200), (8, 11, 100), (1, 5, 30))
NAME = r'"((?:[^"\\]|\\.)*)"'
MASK, TIMES = 2 ** 64 - 1, 6364136223846793005
NODE = re.compile(r'  "(\d+)\.(\d+)" \[ pos="(\d+),-(\d+)!"(?: tooltip="(.*?)")?(?: label="(.*?)")? .*\];')
ARC = re.compile(r'  "(\d+)\.(\d+)" -> "(\d+)\.(\d+)" \[(?: label="(\d+) new")? (\w+)="(\w+)" .*\];')


def parts(lines):
    """The names of the nodes, and the arcs, of a picture of firings."""
    arcs = [re.fullmatch(rf"  {NAME} -> {NAME} \[.*\];", line) for line in lines]
    nodes = [re.search(rf"^  (?:subgraph {NAME} {{ )*{NAME} \[ .* \];(?: }})*$", line)
             for line, arc in zip(lines, arcs) if not arc]
    return [node[2] for node in nodes if node], [(arc[1], arc[2]) for arc in arcs if arc]


def needs(firing):
    """The nodes of what a firing needs: its tokens, and the cell that it reads."""
    own, _, write = firing.partition(" by ")
    _, name, *values = own.split(" ")
    tokens = [f"t {name} {port} {value}" for port, value in enumerate(values, 1)]
    return tokens + ([f"{values[0][1:].rpartition('#')[0]}[{values[1]}]"] if write else [])


def firing_faults(lines, firings):
    """What is wrong with the picture of these firings."""
    nodes, arcs = parts(lines)
    if [node for node in nodes if node.startswith("f ")] != firings:
        yield "other firings"
    if [arc for arc in arcs if arc[1].startswith("f ")] != [(need, it) for it in firings for need in needs(it)]:
        yield "other needs"
    if len(set(nodes)) != len(nodes) or not {end for arc in arcs for end in arc} <= set(nodes):
        yield "an arc without a node, or a node twice"
    given = {arc[1] for arc in arcs}
    if sum(node not in given for node in nodes if not node.startswith("f ")) != 1:
        yield "something but the argument is given by no firing"


def entries_of(lines):
    """How many entries a picture shows: what is no firing, and each write of a cell after its first."""
    nodes, arcs = parts(lines)
    cells = {node for node in nodes if node.endswith("]") and node[0] in "-("}
    return sum(not node.startswith("f ") for node in nodes) + len({arc for arc in arcs if arc[1] in cells}) - len(cells)


def run_faults(file, argument, firings):
    words = [file, argument, "--firings", firings]
    drawn, run, whole = call(["draw", *words]), call(["run", *words]), call(["run", file, argument])
    lines = drawn.out.splitlines()
    log = [line for line in call(["save", *words]).out.splitlines() if line.startswith("f ")]
    yield from firing_faults(lines, log)
    if drawn.status != run.status or f"entries {entries_of(lines)}" not in run.out.splitlines():
        yield "another status, or other entries"
    left = int(re.search(r"^firings (\d+)$", whole.out, re.M)[1]) - len(log)
    if drawn.error != (f"u: the picture leaves out {left} firings\n" if left else ""):
        yield f"said: {drawn.error}"


def story_faults(file, argument):
    for answer in re.findall(r"^answer (.*)$", call(["run", file, argument]).out, re.M):
        told = call(["trace", file, argument, f"a {answer}"]).out.splitlines()
        start = next(place for place, it in enumerate(told) if it.startswith("story "))
        drawn = call(["draw", file, argument, f"a {answer}"])
        if drawn.status != 0 or drawn.error:
            yield f"the story of {answer}: {drawn.error}"
        for fault in firing_faults(drawn.out.splitlines(), told[start + 1:]):
            yield f"the story of {answer}: {fault}"


def turned(state):
    """A word of PCG XSH RR 64/32."""
    word, turn = ((state >> 18 ^ state) >> 27) & 0xFFFFFFFF, state >> 59
    return (word >> turn | word << (32 - turn)) & 0xFFFFFFFF


def random_words(seed):
    """The words of the generator with that seed."""
    begun = []
    for _ in range(4):
        seed = (seed * TIMES + 11634580027462260723) & MASK
        begun.append(turned(seed))
    step = begun[2] | begun[3] << 32 | 1
    state = ((begun[0] | begun[1] << 32) + step) * TIMES + step & MASK
    while True:
        yield turned(state)
        state = state * TIMES + step & MASK


def random_events(replicas, seed, count):
    """Of each event: the words that its row begins with, its replica, and where what comes was sent, if
    something comes. A row and a replica say where."""
    drawn, sent = random_words(seed), []
    for row in range(1, count + 1):
        kind, replica, other, pick = (next(drawn) for _ in range(4))
        kind, replica = kind % 8, 1 + replica % replicas
        if replicas > 1:
            other = 1 + (replica + other % (replicas - 1)) % replicas
        if kind == 3 and replicas > 1:
            sent.append((True, row, replica, other))
            yield f"asks {other}", replica, None
        elif kind in (4, 5) and sent:
            is_ask, place, sender, receiver = sent[pick % len(sent)]
            if is_ask:
                sent.append((False, row, receiver, sender))
            yield "answers" if is_ask else "takes ", receiver, (place, sender)
        elif kind == 6 and replicas > 1:
            yield "merges ", replica, (row, other)
        elif kind == 7:
            yield "saves" if pick % 2 == 0 else "starts again, with ", replica, None
        else:
            yield "fires ", replica, None


def read_world(lines):
    """The nodes by row and replica, and the arcs, each with how it looks, of a picture of a world."""
    nodes, arcs = {}, []
    for line in lines[4:-1]:
        node, arc = NODE.fullmatch(line), ARC.fullmatch(line)
        if node:
            row, replica, across, down = map(int, node.groups()[:4])
            assert (across, down) == (11 * replica, row) and (row, replica) not in nodes, line
            nodes[row, replica] = (node[5], node[6], "#f4c7c3" in line)
        else:
            arcs.append(((int(arc[1]), int(arc[2])), (int(arc[3]), int(arc[4])), arc[7], int(arc[5] or 0)))
    return nodes, arcs


def event_faults(lines, replicas, events, counts):
    """What is wrong with the lines of the picture of these events."""
    nodes, arcs = read_world(lines)
    last = len(events) + 1
    taken = dict.fromkeys(range(1, replicas + 1), 0)
    wanted = [((0, it), (last, it), "none", 0) for it in taken]
    for replica in taken:
        if nodes.pop((0, replica), ["", ""])[1] != f"replica {replica}" or not nodes.pop((last, replica), None):
            yield f"no column of replica {replica}"
    for row, (said, replica, origin) in enumerate(events, 1):
        full, label, is_red = nodes.pop((row, replica), ("", None, False))
        label = label or ""
        if not label.startswith(said) or said == "saves" != label:
            yield f"row {row} is {label!r} and not {said!r}"
        if is_red != said.startswith("starts") or (label != full and said != "fires "):
            yield f"row {row} looks otherwise"
        new = int((re.search(r" (\d+) new", label) or [0, 0])[1])
        if said.startswith("starts"):
            has, had = map(int, re.findall(r"\d+", label))
            if had != taken[replica]:
                yield f"row {row} had {had} and not {taken[replica]}"
            taken[replica] = has
        taken[replica] += (said == "fires " and label != "fires nothing") + new
        if said == "merges ":
            nodes.pop(origin, None)
        if origin:
            look = "dashed" if said == "answers" else "bold" if new else "dotted"
            wanted.append((origin, (row, replica), look, new))
    if nodes or sorted(arcs) != sorted(wanted):
        yield f"other arcs or nodes: {nodes} {set(arcs) ^ set(wanted)}"
    if list(taken.values()) != counts:
        yield f"{taken} firings and not {counts}"


def world_faults(file, replicas, seed, events):
    words = ["world", file, "2", "--replicas", str(replicas), "--seed", str(seed), "--events", str(events)]
    told, drawn = call(words), call([*words, "--draw"])
    if (drawn.status, drawn.error) != (told.status, ""):
        yield f"another status: {drawn.error}"
    rows = [line.split() for line in told.out.splitlines() if line.startswith("replica ")]
    counts = [int(row[3]) + int(row[5]) for row in rows]
    yield from event_faults(drawn.out.splitlines(), replicas, list(random_events(replicas, seed, events)), counts)


def main(file):
    for run in RUNS:
        for fault in [*run_faults(file, *run), *story_faults(file, run[0])]:
            print(f"{file} {run[0]}: {fault}")
    for world in WORLDS:
        for fault in world_faults(file, *world):
            print(f"{file} 2, replicas, seed and events {world}: {fault}")


if __name__ == "__main__":
    main(sys.argv[1])
