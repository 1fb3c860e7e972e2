#!/usr/bin/env python3
"""Makes random programs, and looks at what `u check --strict --determinate` says of each beside a run of it.

Where a program is strict or determinate, a report without a `cell` line has no `port` line and one `answer`
line at most, and `u blame` finds a cell for each port that clashes; and a strict program is determinate. The
last line is 'N passed, M failed': a program passes if all of this holds of it. The script fails too where few
of the programs are strict, or determinate, or clash, with and without a clash of a cell, since then it shows
little.

    tests/random_programs.py [--seed S] [--programs N]

The same seed makes the same programs. U_BINARY is the program that is run.
"""
import collections
import contextlib

import running
from running import Wrong

# How many firings a run has at most, and how many ports of one report are blamed.
FIRINGS, BLAMED = 2000, 3
NUMBERS = ("add", "sub", "mul", "div", "rem")
TESTS = ("lt", "le", "eq")
PORTS = {"select": 3, "store": 3, "switch": 2, "fetch": 2, "apply": 2}
PORTS.update((kind, 2) for kind in NUMBERS + TESTS + ("and", "or"))
# The least share of the programs, in a hundred, that has to be in each class.
LEAST = {
    "strict": 20,
    "determinate, not strict": 15,
    "determinate, one answer": 20,
    "neither, and clashes without a cell": 5,
    "determinate, a cell clashes": 10,
    "determinate, a cell clashes, and a port": 5,
}

# A value: the place of the statement that gives it, the list that it is sent by (1 on false), and its type.
Value = collections.namedtuple("Value", "statement side type")


class Block:
    """A block in the making: its loops by the regions that hold them, and its statements."""

    def __init__(self, name, chance, sides, twice, procedures):
        self.name, self.chance, self.procedures = name, chance, procedures
        # Whether sides of a `switch` may meet in a port, and how often a cell is stored twice.
        self.sides, self.twice = sides, twice
        self.loops, self.statements = [], []

    def add(self, kind, region, *inputs, type="number"):
        """Adds a statement that takes these values, and returns what it gives."""
        place = len(self.statements)
        self.statements.append([kind, region, ([], [])])
        for port, value in enumerate(inputs, 1):
            self.send(value, place, port)
        return Value(place, 0, type)

    def send(self, value, place, port):
        self.statements[value.statement][2][value.side].append((place, port))

    def pick(self, values, type):
        """One of the newer values of that type."""
        fitting = [value for value in values if value.type == type]
        return self.chance.choice(fitting[-5:]) if fitting else None

    def number(self, region, values):
        """A number: one that is there, or a constant."""
        there = None if self.chance.random() < 0.3 else self.pick(values, "number")
        return there or self.constant(region, values)

    def constant(self, region, values, least=-3, most=5):
        kind = f"const {self.chance.randint(least, most)}"
        return self.add(kind, region, self.chance.choice(values[-3:]))

    def test(self, region, values):
        kind = self.chance.choice(TESTS)
        return self.add(kind, region, self.number(region, values), self.number(region, values), type="truth")

    def text(self):
        lines = [f"block {self.name}"]
        lines += [f"loop {number} {holder}" for number, holder in enumerate(self.loops, 1)]
        for number, (kind, region, lists) in enumerate(self.statements, 1):
            sent = ["".join(f" {place + 1}.{port}" for place, port in sorted(set(ports))) for ports in lists]
            lines.append(f"{number} {region} {kind} ->{sent[0]}" + (f" /{sent[1]}" if kind == "switch" else ""))
        return "\n".join(lines) + "\n"

    def place_of(self, word):
        """The place of a statement of this kind. An IndexError is raised if there is none."""
        places = [place for place, (kind, _, _) in enumerate(self.statements) if kind.split(" ")[0] == word]
        return self.chance.choice(places)

    def operate(self, region, values, depth):
        kind = self.chance.choice(NUMBERS[:3] if self.chance.random() < 0.9 else NUMBERS)
        values.append(self.add(kind, region, self.number(region, values), self.number(region, values)))

    def hand_on(self, region, values, depth):
        value = self.chance.choice(values[-4:])
        values.append(self.add("pass", region, value, type=value.type))

    def negate(self, region, values, depth):
        values.append(self.add("not", region, self.test(region, values), type="truth"))

    def select(self, region, values, depth):
        numbers = [self.number(region, values) for _ in range(2)]
        values.append(self.add("select", region, self.test(region, values), *numbers))

    def switch(self, region, values, depth):
        """Sends a value one of two ways, and lets what comes of it meet again."""
        if not self.sides:
            return self.call_selected(region, values, depth)
        control = self.pick(values, "truth") or self.test(region, values)
        for _ in range(self.chance.choice((0, 0, 0, 1, 2))):
            control = self.add("pass", region, control, type="truth")
        place = self.add("switch", region, self.number(region, values), control).statement
        ends = []
        for side in range(2):
            inside = values[-3:] + [Value(place, side, "number")]
            for _ in range(self.chance.randint(0, 2)):
                self.extend(region, inside, depth + 1)
            ends.append(self.one_of_side(region, inside, Value(place, side, "number")))
        kind = self.chance.choice(("pass", "pass", "add"))
        met = self.add(kind, region, ends[0], *([self.number(region, values)] if kind == "add" else []))
        self.send(ends[1], met.statement, 1)
        values.append(met)

    def one_of_side(self, region, inside, first):
        """A number that is there only on that side: what was made last there, with what the side begins with."""
        if inside[-1] == first or self.chance.random() < 0.3:
            return first
        return self.add("add", region, first, self.number(region, inside))

    def loop(self, region, values, depth):
        """A loop that counts down, with one or two more variables, of which it hands one out."""
        if len(self.loops) >= 3:
            return self.operate(region, values, depth)
        self.loops.append(region)
        inner = len(self.loops)
        count = self.constant(region, values, 0, 3)
        entered = [count] + [self.number(region, values) for _ in range(self.chance.randint(1, 2))]
        heads = [self.add("pass", inner, self.add(f"enter {inner}", region, value)) for value in entered]
        zero = self.add("const 0", inner, heads[0])
        test = self.add("lt", inner, zero, heads[0], type="truth")
        inside = heads + [test]
        for _ in range(self.chance.randint(0, 3)):
            self.extend(inner, inside, depth + 1)
        less = self.add("sub", inner, heads[0], self.add("const 1", inner, heads[0]))
        for head in heads:
            new = less if head is heads[0] else self.number(inner, inside)
            sent = self.add("switch", inner, new, test)
            back = self.add("next", inner, sent)
            self.send(back, head.statement, 1)
        if self.sides and self.chance.random() < 0.2:
            for kind in ("not", "not") if self.chance.random() < 0.3 else ("pass",):
                test = self.add(kind, inner, test, type="truth")
        handed = self.add("switch", inner, heads[-1], test).statement
        last = self.add("last", inner, Value(handed, 1, "number"))
        values.append(self.add("leave", inner, last))

    def apply(self, region, procedure, argument):
        back = self.add("back", region)
        self.add(f"apply {back.statement + 1}", region, procedure, argument)
        return back

    def call(self, region, values, depth):
        if not self.procedures:
            return self.operate(region, values, depth)
        name = self.chance.choice(self.procedures)
        procedure = self.add(f"const @{name}", region, self.chance.choice(values[-3:]), type="procedure")
        values.append(self.apply(region, procedure, self.number(region, values)))

    def call_selected(self, region, values, depth):
        """Chooses a procedure and calls it."""
        if not self.procedures:
            return self.select(region, values, depth)
        control = self.test(region, values)
        choice = [self.add(f"const @{self.chance.choice(self.procedures)}", region, values[-1]) for _ in range(2)]
        procedure = self.add("select", region, control, *choice, type="procedure")
        values.append(self.apply(region, procedure, self.number(region, values)))

    def structure(self, region, values, depth):
        """Makes a structure, writes one or two cells of it, and reads one."""
        made = self.add("alloc", region, self.constant(region, values, 2, 4), type="structure")
        cell = self.constant(region, values, 0, 1)
        self.add("store", region, made, cell, self.number(region, values))
        if self.chance.random() < self.twice:
            self.add("store", region, made, cell, self.number(region, values))
        elif self.chance.random() < 0.5:
            other = self.add("add", region, cell, self.add("const 1", region, cell))
            self.add("store", region, made, other, self.number(region, values))
        values.append(self.add("fetch", region, made, cell))

    def extend(self, region, values, depth):
        """Adds something to the block, and what it gives to the values."""
        ways = [self.operate, self.operate, self.hand_on, self.negate, self.select, self.switch, self.switch, self.call,
                self.structure, self.structure]
        if depth < 2:
            ways += [self.loop, self.loop]
        self.chance.choice(ways if depth < 3 else ways[:5])(region, values, depth)

    def fill(self, size):
        """Adds all that a block has, from its `begin` to its `end`."""
        values = [self.add("begin", 0)]
        for _ in range(size):
            self.extend(0, values, 0)
        numbers = [value for value in values if value.type == "number"][-3:]
        result = numbers.pop()
        for number in numbers:
            if self.chance.random() < 0.7:
                result = self.add("add", 0, result, number)
        self.add("end", 0, result)

    def send_more(self):
        """Sends a value to one port more."""
        senders = [(region, lists) for kind, region, lists in self.statements
                   if lists[0] and kind.split(" ")[0] not in ("last", "enter", "leave")]
        region, lists = self.chance.choice(senders)
        to = self.chance.choice([place for place, (kind, own, _) in enumerate(self.statements)
                                  if own == region and kind not in ("begin", "back", "leave")])
        lists[0].append((to, self.chance.randint(1, PORTS.get(self.statements[to][0].split(" ")[0], 1))))

    def turn_switch(self):
        lists = self.statements[self.place_of("switch")][2]
        lists[0][:], lists[1][:] = lists[1][:], lists[0][:]

    def stay_in_turn(self):
        self.statements[self.place_of("next")][0] = "pass"

    def end_again(self):
        kinds = NUMBERS + ("pass", "begin", "const")
        places = [place for place, (kind, own, _) in enumerate(self.statements)
                  if own == 0 and kind.split(" ")[0] in kinds]
        self.add("end", 0, Value(self.chance.choice(places), 0, "number"))

    def apply_again(self):
        """Calls a second time what is called, with the same argument and back to the same place."""
        call = self.place_of("apply")
        again = self.add(*self.statements[call][:2]).statement
        for _, _, lists in self.statements:
            for sent in lists:
                sent += [(again, port) for to, port in sent if to == call]

    def send_on_both(self):
        """Sends on both sides of a `switch` what one side sends."""
        lists = self.statements[self.place_of("switch")][2]
        side, sent = self.chance.choice([(side, sent) for side in range(2) for sent in lists[side]])
        lists[1 - side].append(sent)


# What may be done to a block, so that it need not keep its promise.
SPOILT = (Block.send_more, Block.send_more, Block.turn_switch, Block.stay_in_turn, Block.end_again, Block.apply_again,
          Block.send_on_both)


def make_program(chance):
    """A random program's text."""
    sides, twice, blocks = chance.random() < 0.6, chance.choice((0, 0.4, 0.9)), []
    for name in [*("one", "two")[:chance.choice((0, 1, 1, 2))], "main"]:
        block = Block(name, chance, sides, twice, [block.name for block in blocks])
        blocks.append(block)
        block.fill(chance.randint(1, 6) if name == "main" else chance.randint(0, 2))
    if chance.random() < 0.4:
        for _ in range(chance.randint(1, 2)):
            block = blocks[-1] if chance.random() < 0.8 else chance.choice(blocks)
            # Nothing takes this number; without it the seeds would stand for other programs.
            chance.randrange(len(block.statements))
            # The block may have no statement that the change is for.
            with contextlib.suppress(IndexError):
                chance.choice(SPOILT)(block)
    return "u-program 1\n" + "".join(block.text() for block in blocks)


def make(chance):
    """A random program and an argument."""
    program = make_program(chance)
    return program, chance.choice(("0", "1", "2", "3", "5", "n1", "n2"))


def judge(program, argument, counts):
    """Raises what is wrong with what is said of a program. Counts the classes that it belongs to."""
    done = running.call(["check", "stdin", "--strict", "--determinate"], program)
    if done.status != 0:
        counts["refused"] += 1
        if done.status != 2 or not done.error.startswith("u: "):
            raise Wrong(f"check ends with {done.status}: {done.error}")
        return
    strict, determinate = (said == word for said, word in zip(done.out.splitlines()[1:], ("strict", "determinate")))
    done = running.call(["run", "stdin", argument, "--firings", str(FIRINGS)], program)
    if done.status not in (0, 3, 4):
        raise Wrong(f"run ends with {done.status}: {done.error}")
    lines = [line.split(" ") for line in done.out.splitlines()]
    first = collections.Counter(words[0] for words in lines)
    ports = sorted({tuple(words[1:3]) for words in lines if words[0] == "port"})
    clashes, cell = bool(ports) or first["answer"] > 1, first["cell"] > 0
    counts.update({
        "strict": strict,
        "determinate, not strict": determinate and not strict,
        "neither": not determinate,
        "neither, and clashes without a cell": not determinate and clashes and not cell,
        "determinate, a cell clashes": determinate and cell,
        "determinate, a cell clashes, and a port": determinate and cell and clashes,
        "determinate, one answer": determinate and first["answer"] == 1 and not cell,
        "paused": done.status == 4,
    })
    if strict and not determinate:
        raise Wrong("it is strict and not determinate")
    if not determinate:
        return
    if clashes and not cell:
        raise Wrong("it is determinate and clashes without a cell")
    for name, port in ports[:BLAMED]:
        done = running.call(["blame", "stdin", argument, name, port], program)
        if done.status != 0 or "no cell" in done.out.splitlines():
            raise Wrong(f"blame {name} {port} ends with {done.status}: {done.out} {done.error}")
        counts["blamed"] += 1


if __name__ == "__main__":
    running.judge_random(__doc__, {"program": make}, judge, LEAST, 10000)
