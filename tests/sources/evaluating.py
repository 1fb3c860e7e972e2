"""The meaning of a source: what comes of it for an argument, as docs/NOTATION.md says.

A value that comes, or never comes, is a `Future`. A scope is one run of a procedure's block, of a side of an
`if`, or of a turn of a loop; what stands in it is evaluated once, where the scope is entered. Each rule says
what comes from what came, and the order in which the rules are followed doesn't matter.
"""
import collections
import operator

from .checking import WHOLE, constant_of, is_atom, is_choice

LEAST, MOST = -2 ** 63, 2 ** 63 - 1
DEEPEST = 64
LONGEST = 1000000


class TooLong(Exception):
    """The evaluation has more steps than it may have."""


class Procedure(collections.namedtuple("Procedure", "node")):
    """A procedure as a value."""

    def __str__(self):
        return f"@{self.node.name.text}"


class Structure:
    """A structure: its length, and for each index that was asked for the value of its cell."""

    def __init__(self, length):
        self.length, self.cells, self.written = length, {}, set()

    def __str__(self):
        return f"&#{self.length}"


class Fault(Exception):
    """An operation has a fault of this kind."""


class Future:
    """A value that comes or never comes, and what waits for it."""

    __slots__ = ("came", "value", "waiting")

    def __init__(self):
        self.came, self.value, self.waiting = False, None, []


class Scope:
    """One run of a block: the values of the names defined in it, the scope around it, its clock and depth."""

    __slots__ = ("values", "around", "clock", "depth")

    def __init__(self, around, clock, depth, values=()):
        self.values, self.around, self.clock, self.depth = dict(values), around, clock, depth

    def side(self, values=()):
        return Scope(self, self.clock, self.depth, values)

    def value_of(self, declaration):
        scope = self
        while declaration not in scope.values:
            scope = scope.around
        return scope.values[declaration]


def in_range(number):
    if not LEAST <= number <= MOST:
        raise Fault("overflow")
    return number


def divide(left, right):
    """The quotient, cut toward zero."""
    if right == 0:
        raise Fault("zero")
    quotient = abs(left) // abs(right)
    return in_range(quotient if (left < 0) == (right < 0) else -quotient)


def allocate(length):
    if not 0 <= length <= LONGEST:
        raise Fault("length")
    return Structure(length)


# What each operator takes, and what it gives.
OPERATORS = {
    "+": (int, lambda left, right: in_range(left + right)),
    "-": (int, lambda left, right: in_range(left - right)),
    "*": (int, lambda left, right: in_range(left * right)),
    "/": (int, divide),
    "%": (int, lambda left, right: left - divide(left, right) * right),
    "negate": (int, lambda value: in_range(-value)),
    "<": (int, operator.lt), "<=": (int, operator.le), ">": (int, operator.gt), ">=": (int, operator.ge),
    "==": (int, operator.eq), "!=": (int, operator.ne),
    "and": (bool, operator.and_), "or": (bool, operator.or_), "not": (bool, operator.not_),
    "array": (int, allocate), "length": (Structure, lambda structure: structure.length),
}


def operate(form, *values):
    """What an operator gives for these values, or its fault."""
    kind, function = OPERATORS[form]
    if any(type(value) is not kind for value in values):
        raise Fault("kind")
    return function(*values)


def choose(control, left, right):
    if type(control) is not bool:
        raise Fault("kind")
    return left if control else right


def cell_of(structure, index):
    if type(structure) is not Structure or type(index) is not int:
        raise Fault("kind")
    if not 0 <= index < structure.length:
        raise Fault("bounds")
    return structure.cells.setdefault(index, Future())


class Evaluation:
    """The evaluation of one source: what is left to do, the faults by their kinds, and whether a cell clashes."""

    def __init__(self, most_steps):
        self.steps, self.work = most_steps, collections.deque()
        self.faults, self.clashed = collections.Counter(), False

    def come(self, future, value):
        """Lets a value come. It comes once: where a cell clashes, the first write counts."""
        if not future.came:
            future.came, future.value = True, value
            self.work.extend((action, value) for action in future.waiting)
            future.waiting = []

    def came(self, value):
        future = Future()
        self.come(future, value)
        return future

    def when(self, future, action):
        """Does something with a value where it comes."""
        if future.came:
            self.work.append((action, future.value))
        else:
            future.waiting.append(action)

    def hand_on(self, source, target):
        self.when(source, lambda value: self.come(target, value))

    def run(self):
        while self.work:
            self.steps -= 1
            if self.steps < 0:
                raise TooLong
            action, value = self.work.popleft()
            action(value)

    def given(self, futures, function):
        """What a function gives for some values, where all of them come and it has no fault."""
        result = Future()

        def go_on(*values):
            if len(values) < len(futures):
                self.when(futures[len(values)], lambda value: go_on(*values, value))
                return
            try:
                self.come(result, function(*values))
            except Fault as fault:
                self.faults[fault.args[0]] += 1
        go_on()
        return result

    # Values.

    def value(self, node, scope):
        """The value of an expression in a scope."""
        if is_atom(node):
            constant = constant_of(node)
            if constant is None:
                return scope.value_of(node.refers)
            value = Procedure(constant.refers) if constant.form == "name" else constant.value
            return self.given([scope.clock], lambda _: value)
        if node.form in WHOLE:
            return self.conditional(node, scope) if node.form == "if" else Loop(self, node, scope).value()
        parts = [self.value(part, scope) for part in node.parts]
        if node.form == "call":
            return self.call(parts, scope.depth)
        if node.form == "index":
            result = Future()
            self.when(self.given(parts, cell_of), lambda cell: self.hand_on(cell, result))
            return result
        # A minus waits for the clock of its scope too.
        waits = [scope.clock] * (node.form == "negate")
        return self.given(parts + waits, lambda *values: operate(node.form, *values[:len(parts)]))

    def write(self, structure, index, value):
        cell = cell_of(structure, index)
        self.clashed = self.clashed or index in structure.written
        structure.written.add(index)
        self.come(cell, value)

    def call(self, parts, depth):
        result = Future()

        def act(called, *arguments):
            if type(called) is not Procedure:
                raise Fault("kind")
            block, names = called.node.parts[1], called.node.refers
            if len(names) != len(arguments):
                raise Fault("arity")
            if depth == DEEPEST:
                raise Fault("deep")
            comes = [self.came(value) for value in arguments]
            self.hand_on(self.block(block, Scope(None, comes[0], depth + 1, zip(names, comes))), result)
        self.given(parts, act)
        return result

    def block(self, node, scope):
        """Evaluates what stands in a block. Returns its value, or None."""
        items, value = node.parts
        for item in items:
            self.item(item, scope)
        return None if value is None else self.value(value, scope)

    def item(self, node, scope):
        if node.form == "define":
            if node.refers.constant is None:
                scope.values[node.refers] = self.value(node.parts[0], scope)
        elif node.form == "write":
            cell, value = node.parts
            self.given([self.value(part, scope) for part in (*cell.parts, value)], self.write)
        elif node.form == "next":
            scope.values[node] = self.value(node.parts[0], scope)
        else:
            self.value(node.parts[0] if node.form == "statement" else node, scope)

    # `if`.

    def conditional(self, node, scope):
        control, then, other = node.parts
        if is_choice(node):
            parts = [self.value(part, scope) for part in (control, then.parts[1], other.parts[1])]
            return self.given(parts, choose)
        result = Future()
        sent = Sent()
        sent.side(then)
        sent.side(other)

        def enter(truth):
            side = then if truth else other
            if type(truth) is not bool:
                self.no_truth(sent, scope, True)
            elif side is not None:
                value = (self.value if side.form == "if" else self.block)(side, scope.side())
                if value is not None:
                    self.hand_on(value, result)
        self.when(self.value(control, scope), enter)
        return result

    def no_truth(self, sent, scope, itself):
        """A control that is no truth value: a fault as soon as a value comes that it would send."""
        futures = [scope.value_of(name) for name in sent.names] + [scope.clock] * sent.clock
        if itself and not futures:
            self.faults["kind"] += 1
        self.fault_with(futures, "kind")

    def fault_with(self, futures, kind):
        for future in futures:
            self.when(future, lambda _: self.faults.update([kind]))


class Loop:
    """One run of a loop in a scope."""

    def __init__(self, evaluation, node, scope):
        self.evaluation, self.node, self.scope = evaluation, node, scope
        self.variables, self.test, self.block, self.gives = node.parts
        self.counts = node.form == "for"
        self.names = [variable.refers for variable in self.variables]
        self.clock = self.names[0] if self.counts else first_used(self.test, self.names) or self.names[0]
        self.lasts, self.limit = {name: Future() for name in self.names}, None

    def value(self):
        """Enters the first turn. Returns the value of the `give`, or None."""
        evaluation, scope = self.evaluation, self.scope
        starts = [evaluation.value(variable.parts[0], scope) for variable in self.variables]
        if self.counts:
            self.limit = evaluation.value(self.variables[0].parts[1], scope)
        if scope.depth == DEEPEST:
            evaluation.fault_with(starts + self.carried(), "deep")
        else:
            self.enter(dict(zip(self.names, starts)))
        return None if self.gives is None else evaluation.value(self.gives, scope.side(self.lasts))

    def outside(self):
        """The names from outside that the turns need."""
        sent = Sent()
        sent.turn(self.node)
        return sent.names - set(self.names)

    def carried(self):
        """The values from outside that the loop needs, besides those that its variables begin with."""
        return [self.scope.value_of(name) for name in self.outside()] + ([self.limit] if self.counts else [])

    def enter(self, values):
        """Enters a turn with these values of the variables."""
        evaluation = self.evaluation
        turn = Scope(self.scope, values[self.clock], self.scope.depth + 1, values)
        if self.counts:
            test = evaluation.given([values[self.names[0]], self.limit], lambda *sides: operate("<", *sides))
        else:
            test = evaluation.value(self.test, turn)
        evaluation.when(test, lambda truth: self.go_on(truth, turn, values))

    def go_on(self, truth, turn, values):
        evaluation = self.evaluation
        if type(truth) is not bool:
            evaluation.no_truth(self.sent(), turn, False)
        elif truth:
            block = turn.side()
            evaluation.block(self.block, block)
            self.enter(self.next_values(block, values))
        else:
            for name in self.names:
                evaluation.hand_on(values[name], self.lasts[name])

    def next_values(self, block, values):
        following = {item.refers: block.values[item] for item in self.block.parts[0] if item.form == "next"}
        if self.counts:
            one = self.evaluation.given([block.clock], lambda _: 1)
            following[self.names[0]] = self.evaluation.given(
                [values[self.names[0]], one], lambda *parts: operate("+", *parts))
        return following

    def sent(self):
        """What the test sends on or out of the loop: what the block and the `give` need, and what is carried."""
        sent, given = Sent(), Sent()
        sent.side(self.block)
        given.value(self.gives)
        sent.names |= given.names & set(self.names) | self.outside()
        return sent


def first_used(node, names):
    """The first of these names that stands in a test outside of sides and inner loops."""
    if node.form == "name":
        return node.refers if node.refers in names else None
    parts = node.parts[:1] if node.form == "if" else () if node.form in WHOLE else node.parts
    return next(filter(None, (first_used(part, names) for part in parts)), None)


class Sent:
    """What has to be sent into a scope: the names from outside that it needs, and whether it needs the clock."""

    def __init__(self):
        self.names, self.clock, self.inside = set(), False, set()

    def values(self, nodes):
        for node in nodes:
            self.value(node)

    def value(self, node):
        """What the value of a node needs, if there is one, or those in an item or a variable."""
        if node is None:
            return
        if is_atom(node):
            if constant_of(node) is not None:
                self.clock = True
            elif node.refers not in self.inside:
                self.names.add(node.refers)
        elif node.form == "if":
            self.value(node.parts[0])
            for side in node.parts[1:]:
                self.side(side)
        elif node.form in WHOLE:
            # What a loop begins with, what its turns need, and what its `give` does.
            self.values(node.parts[0])
            self.turn(node)
            self.value(node.parts[-1])
        else:
            self.clock = self.clock or node.form == "negate"
            self.values(node.parts)

    def side(self, node):
        """What a side needs: a block, an `if`, or nothing."""
        if node is None or node.form == "if":
            self.value(node)
            return
        items, value = node.parts
        for item in items:
            self.item(item)
        self.value(value)

    def item(self, node):
        if node.form != "define":
            self.value(node)
        elif node.refers.constant is None:
            self.value(node.parts[0])
            self.inside.add(node.refers)

    def turn(self, node):
        """What the turns of a loop need from outside of it; their constants come with one of its variables."""
        inner = Sent()
        inner.inside.update(variable.refers for variable in node.parts[0])
        inner.value(node.parts[1])
        inner.side(node.parts[2])
        self.names |= inner.names - self.inside
        self.inside |= inner.inside


Outcome = collections.namedtuple("Outcome", "verdict answer faults")


def evaluate(procedures, argument, most_steps=1000000):
    """What comes of a checked source: the verdict `clashed`, `faulted`, `answer` or `none`, the answer or None,
    and how many faults there are of each kind. Raises `TooLong` where it takes more steps."""
    evaluation = Evaluation(most_steps)
    answer = evaluation.call([evaluation.came(Procedure(procedures["main"])), evaluation.came(argument)], -1)
    evaluation.run()
    shown = None
    if answer.came:
        shown = str(answer.value).lower() if type(answer.value) is bool else str(answer.value)
    verdict = "answer" if answer.came else "none"
    if evaluation.clashed or evaluation.faults:
        verdict = "clashed" if evaluation.clashed else "faulted"
    return Outcome(verdict, shown, evaluation.faults)
