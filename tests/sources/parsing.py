"""The syntax tree of a source.

A node has a form, the token that shows it in an error, and parts. The forms and their parts:

    name, number, true, false     none; a number has its `value`, a name is its token
    negative                      none: a number with the minus before it, its `value`
    not, negate, array, length    one
    + - * / % < <= > >= == != and or     two
    index                         a structure, an index
    call                          what is called, then the arguments
    if                            the control, a block, and a block, an `if` or None
    loop, for                     the variables (a list), the test (None in a `for`), a block, a `give` or None
    counter                       the first variable of a `for`: the first number, the limit; `name` is its token
    variable, define, next        the value, which a variable begins with; `name` is the token of the name
    write                         an index node, the value
    statement                     a call
    block                         the items (a list), and the value at its end or None
    procedure                     the parameters (a list of tokens), a block; `name` is its token
"""
from .tokens import read_tokens, refuse, shown

LEVELS = 60
MOST = 4
COMPARISONS = ("<", "<=", ">", ">=", "==", "!=")
# Operators between two parts, those that bind less first. All but the comparisons group to the left.
ROWS = (("or",), ("and",), COMPARISONS, ("+", "-"), ("*", "/", "%"))
TEST = 2


class Node:
    """A node of a syntax tree. `refers` is what a name means, once the names are checked."""

    __slots__ = ("form", "token", "parts", "value", "name", "refers")

    def __init__(self, form, token, *parts, value=None, name=None):
        self.form, self.token, self.parts = form, token, parts
        self.value, self.name, self.refers = value, name, None


class Parser:
    """Reads tokens from the front. A `level` counts the nesting around what is read."""

    def __init__(self, tokens):
        self.tokens, self.at = tokens, 0

    def next(self):
        return self.tokens[self.at]

    def sees(self, *signs):
        return self.next().kind == "sign" and self.next().text in signs

    def take(self):
        self.at += 1
        return self.tokens[self.at - 1]

    def takes(self, sign):
        """Whether the next token is that sign, which is then taken."""
        return self.sees(sign) and bool(self.take())

    def refuse_next(self, expected):
        refuse(self.next(), f"{expected} expected, {shown(self.next())} found")

    def expect(self, sign):
        if not self.sees(sign):
            self.refuse_next(f"`{sign}`")
        return self.take()

    def expect_name(self):
        if self.next().kind != "name":
            self.refuse_next("a name")
        return self.take()

    def deepen(self, level):
        """The level of the parts of what the next token begins."""
        if level == LEVELS:
            refuse(self.next(), "nested too deep")
        return level + 1

    def some(self, what, read, *level):
        """At most four, with commas between them."""
        found = [read(*level)]
        while self.sees(","):
            if len(found) == MOST:
                refuse(self.next(), f"more than 4 {what}")
            self.take()
            found.append(read(*level))
        return found

    # Procedures, blocks and items.

    def source(self):
        procedures = []
        while self.sees("def"):
            procedures.append(self.procedure())
        if self.next().kind != "end":
            self.refuse_next("`def`")
        return procedures

    def procedure(self):
        first = self.expect("def")
        name = self.expect_name()
        self.expect("(")
        parameters = self.some("parameters", self.expect_name)
        self.expect(")")
        return Node("procedure", first, parameters, self.block(0), name=name)

    def block(self, level):
        first, items, value = self.expect("{"), [], None
        while value is None and not self.sees("}"):
            value = self.item(items, level)
        self.expect("}")
        return Node("block", first, items, value)

    def item(self, items, level):
        """Reads an item, or a value and up to the `}` behind it, and returns the value."""
        if self.sees("next"):
            first = self.take()
            name = self.expect_name()
            self.expect("=")
            items.append(Node("next", first, self.expression(level), name=name))
            self.expect(";")
        elif self.sees("if", "loop", "for"):
            whole = self.whole(level)
            if self.sees("}"):
                return whole
            items.append(whole)
            self.takes(";")
        elif self.next().kind in ("name", "number") or self.sees("true", "false", "("):
            return self.beginning(items, level)
        else:
            return self.last(self.expression(level))
        return None

    def beginning(self, items, level):
        """Reads an item that begins with a primary, or a value that does."""
        name = self.next()
        is_enclosed = self.sees("(")
        primary = self.primary(level)
        front = self.postfix(primary, level)
        # In parentheses alone nothing is a name to define, a cell to write or a call whose value goes nowhere.
        form = None if is_enclosed and front is primary else front.form
        if self.sees("=") and form in ("name", "index"):
            equals = self.take()
            value = self.expression(level)
            self.expect(";")
            items.append(Node("define", equals, value, name=name) if form == "name"
                         else Node("write", equals, front, value))
        elif form == "call" and self.takes(";"):
            items.append(Node("statement", front.token, front))
        else:
            return self.last(self.expression(level, front))
        return None

    def last(self, value):
        if self.sees(";"):
            refuse(self.next(), "value goes nowhere")
        if not self.sees("}"):
            self.refuse_next("`}`")
        return value

    # `if` and loops.

    def whole(self, level):
        return self.conditional(level) if self.sees("if") else self.loop(level)

    def conditional(self, level):
        inner = self.deepen(level)
        first = self.expect("if")
        control, then, other = self.expression(inner), self.block(inner), None
        if self.takes("else"):
            other = self.conditional(inner) if self.sees("if") else self.block(inner)
        return Node("if", first, control, then, other)

    def loop(self, level):
        inner = self.deepen(level)
        first, test = self.take(), None
        variables = [(self.counter if first.text == "for" else self.variable)(first, inner)]
        while self.sees(","):
            variables.append(self.variable(self.take(), inner))
        if first.text == "loop":
            self.expect("while")
            test = self.expression(inner)
        block = self.block(inner)
        return Node(first.text, first, variables, test, block, self.expression(inner) if self.takes("give") else None)

    def counter(self, first, level):
        name = self.expect_name()
        self.expect("in")
        start = self.expression(level)
        self.expect("..")
        return Node("counter", first, start, self.expression(level), name=name)

    def variable(self, first, level):
        name = self.expect_name()
        self.expect("=")
        return Node("variable", first, self.expression(level), name=name)

    # Expressions.

    def expression(self, level, front=None, row=0):
        """An expression of operators of this row and of those that bind more. `front` is its first unary, where
        that was read already."""
        if row == len(ROWS):
            return self.unary(level) if front is None else front
        if row == TEST and front is None and self.sees("not"):
            inner = self.deepen(level)
            return Node("not", self.take(), self.expression(inner, None, TEST))
        left = self.expression(level, front, row + 1)
        while self.sees(*ROWS[row]):
            sign = self.take()
            left = Node(sign.text, sign, left, self.expression(level, None, row + 1))
            if row == TEST:
                break
        return left

    def unary(self, level):
        if not self.sees("-", "array", "length"):
            return self.postfix(self.primary(level), level)
        inner = self.deepen(level)
        sign = self.take()
        if sign.text != "-":
            return Node(sign.text, sign, self.unary(inner))
        behind = self.next()
        if behind.kind == "number":
            self.take()
            return self.postfix(Node("negative", behind, value=-int(behind.text)), inner)
        return Node("negate", behind, self.unary(inner))

    def postfix(self, value, level):
        while self.sees("[", "("):
            inner = self.deepen(level)
            sign = self.take()
            if sign.text == "[":
                value = Node("index", sign, value, self.expression(inner))
                self.expect("]")
            else:
                value = Node("call", sign, value, *self.some("arguments", self.expression, inner))
                self.expect(")")
        return value

    def primary(self, level):
        token = self.next()
        if token.kind == "number":
            if int(token.text) == 2 ** 63:
                refuse(token, "number out of range")
            return Node("number", self.take(), value=int(token.text))
        if token.kind == "name":
            return Node("name", self.take(), name=token)
        if self.sees("true", "false"):
            return Node(token.text, self.take(), value=token.text == "true")
        if self.sees("("):
            inner = self.deepen(level)
            self.take()
            value = self.expression(inner)
            self.expect(")")
            return value
        if not self.sees("if", "loop", "for"):
            self.refuse_next("an expression")
        return self.whole(level)


def parse(source):
    """The procedures of a source, which is bytes, and its tokens."""
    tokens = read_tokens(source)
    return Parser(tokens).source(), tokens
