"""The rules for the names, the values and the kinds of a source.

`check` refuses a source at the first token that breaks a rule of names or values, and then at the first that
shows a clash of kinds. Of an accepted one each node of a name, a `next`, a variable and a definition has in
`refers` the declaration that it means, or the node of a procedure.
"""
from .parsing import COMPARISONS, parse
from .tokens import Refused, refuse

PROCEDURES = 64
CONSTANTS = ("number", "negative", "true", "false")
WHOLE = ("if", "loop", "for")


class Declaration:
    """What a name means: a parameter, a definition, a variable of a loop, or the counter of a `for`.

    Where it is a definition that gives another name to a constant, `constant` is a node of that constant.
    """

    __slots__ = ("name", "kind", "constant")

    def __init__(self, name):
        self.name, self.kind, self.constant = name, None, None


def is_atom(node):
    return node.form == "name" or node.form in CONSTANTS


def constant_of(node):
    """The node of the constant that an atom is, or None."""
    return node.refers.constant if isinstance(node.refers, Declaration) else node


def is_choice(node):
    """Whether an `if` has just a name or a constant on both sides."""
    _, then, other = node.parts
    return other is not None and other.form == "block" and all(
        not side.parts[0] and side.parts[1] is not None and is_atom(side.parts[1]) for side in (then, other))


class Faults:
    """Goes through a source and keeps what is not allowed."""

    def __init__(self):
        self.found = []

    def refuse(self, token, text):
        self.found.append((token.number, len(self.found), token, text))

    def tell_first(self):
        if self.found:
            refuse(*min(self.found)[2:])


class Names(Faults):
    """Names and values."""

    def __init__(self, procedures, tokens):
        super().__init__()
        self.procedures, self.tokens = procedures, tokens
        self.closing = closing_braces(tokens)
        self.by_name = {procedure.name.text: procedure for procedure in reversed(procedures)}
        # The declarations of the procedure that is gone through, as they end, and all that it will have.
        self.ended, self.coming = [], []

    def source(self):
        for number, procedure in enumerate(self.procedures):
            self.procedure(number, procedure)
        self.tell_first()
        if "main" not in self.by_name:
            line, column = self.tokens[-2][-2:] if len(self.tokens) > 1 else (1, 1)
            raise Refused(line, column, "no procedure `main`")

    def procedure(self, number, node):
        parameters, block = node.parts
        name = node.name
        if number == PROCEDURES:
            self.refuse(name, "more than 64 procedures")
        elif self.by_name[name.text] is not node:
            self.refuse(name, f"`{name.text}` is defined already in line {self.by_name[name.text].name.line}")
        elif name.text == "main" and len(parameters) != 1:
            self.refuse(name, "`main` takes 1 parameter")
        self.ended, self.coming = [], list(parameters)
        collect(block, self.coming)
        known = {}
        node.refers = [self.declare(parameter, known) for parameter in parameters]
        self.block(block, known, True)

    def declare(self, name, known):
        """Adds a declaration to those that are known, if it is allowed."""
        if name.text in self.by_name:
            self.refuse(name, f"`{name.text}` is a procedure")
        elif name.text in known:
            self.refuse(name, f"`{name.text}` is defined already in line {known[name.text].name.line}")
        known[name.text] = Declaration(name)
        self.ended.append(name)
        return known[name.text]

    def use(self, node, known):
        name = node.name
        node.refers = self.by_name.get(name.text) or known.get(name.text)
        if node.refers is None:
            self.refuse(name, f"`{name.text}` {self.why_unknown(name.text)}")

    def why_unknown(self, name):
        for earlier in reversed(self.ended):
            if earlier.text == name:
                return f"of line {earlier.line} is not known here"
        for later in self.coming[len(self.ended):]:
            if later.text == name:
                return f"is defined later, in line {later.line}"
        return "is not known"

    def block(self, node, known, wanted, loop=None):
        """Checks a block: whether its value is wanted, and the loop whose own block it is."""
        items, value = node.parts
        known = dict(known)
        for item in items:
            self.item(item, known, loop)
        if value is None:
            if wanted:
                self.refuse(node.token, "value expected at the end of the block")
        elif value.form in WHOLE:
            self.whole(value, known, wanted)
        else:
            self.value(value, known)
            if not wanted:
                self.refuse(self.closing[node.token.number], "value goes nowhere")

    def item(self, node, known, loop):
        if node.form == "next":
            self.next(node, loop)
        if node.form in WHOLE:
            self.whole(node, known, False)
        else:
            self.value(node, known)
        if node.form == "define":
            node.refers = self.declare(node.name, known)
            if is_atom(node.parts[0]):
                node.refers.constant = constant_of(node.parts[0])

    def next(self, node, loop):
        name, (variables, seen) = node.name.text, loop or ({}, {})
        node.refers = variables.get(name)
        if loop is None:
            self.refuse(node.name, "`next` stands outside a loop's own block")
        elif name not in variables:
            self.refuse(node.name, f"`{name}` is no variable of this loop")
        elif name in seen:
            self.refuse(node.name, f"second `next {name}`, the first is in line {seen[name]}")
        else:
            seen[name] = node.name.line

    def whole(self, node, known, wanted):
        """Checks an `if` or a loop, whose value is wanted or not."""
        if node.form != "if":
            self.loop(node, known)
            if wanted and node.parts[-1] is None:
                self.refuse(node.token, "loop without `give` gives no value")
            return
        control, then, other = node.parts
        self.value(control, known)
        self.block(then, known, wanted)
        if other is not None:
            (self.whole if other.form == "if" else self.block)(other, known, wanted)
        elif wanted:
            self.refuse(node.token, "`if` without `else` gives no value")

    def loop(self, node, known):
        variables, test, block, given = node.parts
        inside, own, seen = dict(known), {}, {}
        having = {item.name.text for item in block.parts[0] if item.form == "next"}
        for variable in variables:
            name = variable.name
            self.value(variable, known)
            twice = name.text in self.by_name or name.text in inside
            variable.refers = own[name.text] = self.declare(name, inside)
            if variable.form == "counter":
                seen[name.text] = name.line
            elif not twice and name.text not in having:
                self.refuse(name, f"loop variable `{name.text}` has no `next`")
        if test is not None:
            self.value(test, inside)
        self.block(block, inside, False, (own, seen))
        if given is not None:
            self.value(given, inside)

    def value(self, node, known):
        """Checks a value, or those in an item or a variable."""
        if node.form == "name":
            self.use(node, known)
        elif node.form in WHOLE:
            self.whole(node, known, True)
        else:
            for part in node.parts:
                self.value(part, known)
            if node.form == "call" and node.parts[0].form == "name" and node.parts[0].name.text in self.by_name:
                self.call(node.parts[0].name, len(node.parts) - 1)

    def call(self, name, given):
        takes = len(self.by_name[name.text].parts[0])
        if takes != given:
            words = "1 argument" if takes == 1 else f"{takes} arguments"
            self.refuse(name, f"`{name.text}` takes {words}, {given} given")


def collect(node, names):
    """Appends the tokens of the names that are declared in a node, in the order in which that ends."""
    for part in node.parts:
        for one in part if isinstance(part, list) else [part]:
            if one is not None:
                collect(one, names)
    if node.form in ("define", "variable", "counter"):
        names.append(node.name)


def closing_braces(tokens):
    """For the number of each `{` the token of the `}` that closes it."""
    closing, open_braces = {}, []
    for token in tokens:
        if token.text == "{":
            open_braces.append(token.number)
        elif token.text == "}":
            closing[open_braces.pop()] = token
    return closing


NUMBER, TRUTH, PROCEDURE, STRUCTURE = "a number", "a truth value", "a procedure", "a structure"
# For each form the kinds that its parts have to be of, and the kind of its value.
OPERATORS = {
    **dict.fromkeys((*"+-*/%", "counter"), ((NUMBER, NUMBER), NUMBER)),
    **dict.fromkeys(COMPARISONS, ((NUMBER, NUMBER), TRUTH)),
    **dict.fromkeys(("and", "or"), ((TRUTH, TRUTH), TRUTH)),
    "number": ((), NUMBER), "negative": ((), NUMBER), "true": ((), TRUTH), "false": ((), TRUTH),
    "not": ((TRUTH,), TRUTH), "negate": ((NUMBER,), NUMBER), "array": ((NUMBER,), STRUCTURE),
    "length": ((STRUCTURE,), NUMBER), "index": ((STRUCTURE, NUMBER), None),
    "call": ((PROCEDURE, None, None, None, None), None), "write": ((None, None), None), "statement": ((None,), None)}


class Kinds(Faults):
    """Kinds of a source whose names are allowed."""

    def source(self, procedures):
        for procedure in procedures:
            self.side(procedure.parts[1])
        self.tell_first()

    def want(self, node, expected):
        """Goes through a value that has to be of a kind, if that is known, or else of any."""
        found = self.value(node)
        if None not in (found, expected) and found != expected:
            self.refuse(node.token, f"{expected} expected, {found} found")

    def value(self, node):
        """The kind of the value of a node, or None where it is not known."""
        if node.form == "name":
            return node.refers.kind if isinstance(node.refers, Declaration) else PROCEDURE
        if node.form in WHOLE:
            return self.side(node) if node.form == "if" else self.loop(node)
        wanted, kind = OPERATORS[node.form]
        for part, expected in zip(node.parts, wanted):
            self.want(part, expected)
        return kind

    def item(self, node):
        if node.form == "define":
            node.refers.kind = self.value(node.parts[0])
        elif node.form == "next":
            begins, goes_on = node.refers.kind, self.value(node.parts[0])
            if None not in (begins, goes_on) and begins != goes_on:
                self.refuse(node.name, f"`{node.name.text}` begins as {begins} and goes on as {goes_on}")
        else:
            self.value(node)

    def side(self, node):
        """The kind of the value of a block or an `if`, or None where there is none or it is not known."""
        if node.form == "if":
            control, then, other = node.parts
            self.want(control, TRUTH)
            kinds = [self.side(side) for side in (then, other) if side is not None]
            return kinds[0] if len(kinds) > 1 and kinds[0] == kinds[1] else None
        items, value = node.parts
        for item in items:
            self.item(item)
        return None if value is None else self.value(value)

    def loop(self, node):
        variables, test, block, given = node.parts
        for variable in variables:
            variable.refers.kind = self.value(variable if variable.form == "counter" else variable.parts[0])
        if test is not None:
            self.want(test, TRUTH)
        self.side(block)
        return None if given is None else self.value(given)


def check(source):
    """The procedures of a source, which is bytes, by name, in their order. Refuses what is no source."""
    procedures, tokens = parse(source)
    Names(procedures, tokens).source()
    Kinds().source(procedures)
    return {procedure.name.text: procedure for procedure in procedures}
