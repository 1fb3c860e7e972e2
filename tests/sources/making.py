"""Random sources, and what may be done to one so that it need not be one any more."""
import collections
import re

# A name in a random source: its kind as the checker knows it, or None; the kind that it is likely to have; and of a
# structure its likely length, of a procedure the number of its parameters.
Name = collections.namedtuple("Name", "text kind likely size")

WORDS = "a b c d e f g h i j k m p q r s t u v w x y z".split()
KINDS = ("number", "truth", "structure", "procedure")
SUMS, TESTS = ("+", "-", "*"), ("<", "<=", ">", ">=", "==", "!=")
FAR = ("9223372036854775807", "-9223372036854775808", "1000001", "-1")


class Here:
    """A place in a source: the names that are known, how many blocks and loops are around it, and its indent."""

    def __init__(self, names, blocks=0, loops=0):
        self.names, self.blocks, self.loops = list(names), blocks, loops

    def inside(self, loops=0):
        return Here(self.names, self.blocks + 1, self.loops + loops)


class Maker:
    """Makes one random source. `chance` is a random.Random; `wide` makes long sums."""

    def __init__(self, chance, wide):
        self.chance, self.wide = chance, wide
        # The procedures that may call themselves many times.
        self.deep = set()
        self.procedures, self.room, self.twice = [], 0, chance.choice((0, 0.1, 0.3, 0.7))
        # How often a value of an unknown kind stands where another kind is wanted, how often a cell has no write,
        # and how often a value never comes.
        self.wrong, self.unwritten = chance.choice((0, 0, 0.03, 0.15)), chance.choice((0, 0.1, 0.4))
        self.never = chance.choice((0, 0, 0.1, 0.3))
        # Whether there are faults that show whether a value came, and how often.
        self.probing = chance.random() < 0.5

    def often(self, share):
        return self.chance.random() < share

    def number_in(self, least, most):
        return self.chance.randint(least, most)

    # Names.

    def fresh(self, here):
        """A word that is no name here."""
        taken = {name.text for name in here.names + self.procedures} | {"main"}
        while True:
            word = self.chance.choice(WORDS)
            if self.often(0.1):
                word += self.chance.choice(("1", "_", "_x2"))
            if word not in taken:
                return word
            if self.often(0.2):
                word += str(self.number_in(0, 99))
                if word not in taken:
                    return word

    def name(self, here, kind, likely, size=None):
        """A new name here."""
        here.names.append(Name(self.fresh(here), kind, likely, size))
        return here.names[-1].text

    def pick(self, here, kind):
        """One of the newer names here that may stand where this kind is wanted."""
        wrong = self.often(self.wrong)
        names = [name for name in here.names if name.kind in (kind, None)
                 and (name.likely == kind or (wrong and name.kind is None))]
        return self.chance.choice(names[-6:]) if names else None

    # Values: the text of an expression, and its kind as the checker knows it.

    def value(self, here, kind, depth=0):
        return getattr(self, kind)(here, depth)

    def waiting(self, here):
        """Items that give a name to a value that never comes: of any kind, as far as the checker knows."""
        if not self.never:
            return []
        texts = ("(array 1)[0]", "(array 2)[1]", "(array 1)[1]", "if true { (array 1)[0] } else { 5 }")
        return [f"{self.name(here, None, 'never')} = {self.chance.choice(texts)};"]

    def atom(self, here, kind):
        waiting = [name for name in here.names if name.likely == "never"]
        if waiting and self.often(self.never):
            return self.chance.choice(waiting).text, None
        name = self.pick(here, kind)
        if name is not None and (kind == "structure" or self.often(0.75)):
            return name.text, name.kind
        if kind == "number":
            if self.often(0.02):
                return self.chance.choice(FAR), "number"
            return str(self.number_in(-2, 5)), "number"
        names = {"truth": ["true", "false"], "procedure": [name.text for name in self.procedures]}.get(kind)
        return (self.chance.choice(names), kind) if names else None

    def number(self, here, depth):
        self.room -= 1
        ways = [self.sum, self.sum, self.sum, self.cell, self.call, self.minus, self.length, self.other]
        if depth > 3 or self.room < 0 or self.often(0.35):
            return self.atom(here, "number")
        if self.wide and self.often(0.15):
            return self.long_sum(here), "number"
        made = self.chance.choice(ways)(here, depth + 1)
        return made if made is not None else self.atom(here, "number")

    def sum(self, here, depth):
        sign = self.chance.choice(SUMS) if self.often(0.85) else self.chance.choice("/%")
        left, right = self.number(here, depth)[0], self.number(here, depth)[0]
        return f"{self.group(left)} {sign} {self.group(right)}", "number"

    def long_sum(self, here):
        """A sum that uses one or two names more often than a list of destinations is long."""
        names = [self.atom(here, "number")[0] for _ in range(self.number_in(1, 2))]
        return " + ".join(self.chance.choice(names) for _ in range(self.number_in(15, 40)))

    def group(self, text):
        """The text as an operand. An item that begins with `if` or a loop ends with it, so these have brackets."""
        if text.isalnum() or (self.often(0.05) and not text.startswith(("if ", "loop ", "for "))):
            return text
        return f"({text})"

    def minus(self, here, depth):
        return f"-{self.group(self.number(here, depth)[0])}", "number"

    def length(self, here, depth):
        name = self.pick(here, "structure")
        return (f"length {name.text}", "number") if name else None

    def cell(self, here, depth):
        name = self.pick(here, "structure")
        return (f"{name.text}[{self.index(here, name, depth)}]", None) if name else None

    def index(self, here, name, depth):
        if self.often(0.8):
            least = -1 if self.often(self.wrong) else 0
            most = max(least, (name.size or 3) - 1 + self.often(self.wrong))
            return str(self.number_in(least, most))
        return self.number(here, depth)[0]

    def call(self, here, depth):
        """A call of a procedure, or of a value that may be one."""
        if here.loops > 1 or not self.procedures:
            return None
        called = self.chance.choice(self.procedures)
        text, takes = called.text, called.size
        held = [name for name in here.names if name.likely == "procedure"]
        if held and self.often(0.5):
            text, _, _, takes = self.chance.choice(held)
            takes = takes or 1
            if self.often(self.wrong):
                takes = self.number_in(1, 4)
        arguments = [self.argument(here, depth) for _ in range(takes)]
        if text in self.deep and self.often(0.1):
            arguments[0] = str(self.number_in(60, 66))
        return f"{text}({', '.join(arguments)})", None

    def argument(self, here, depth):
        kind = "number" if self.often(0.85) else self.chance.choice(KINDS)
        made = self.value(here, kind, depth + 1)
        return made[0] if made is not None else str(self.number_in(0, 3))

    def other(self, here, depth, kind="number"):
        """An `if` or a loop with a value."""
        if here.blocks > 3 or self.room < 0:
            return None
        if self.often(0.55):
            return self.choice(here, kind, depth)
        return self.loop(here, True) if here.loops < 2 else None

    def truth(self, here, depth):
        self.room -= 1
        if depth > 3 or self.room < 0 or self.often(0.15):
            return self.atom(here, "truth")
        way = self.number_in(0, 9)
        if way < 6:
            left, right = self.number(here, depth + 1)[0], self.number(here, depth + 1)[0]
            return f"{self.group(left)} {self.chance.choice(TESTS)} {self.group(right)}", "truth"
        if way < 8:
            sides = [self.group(self.truth(here, depth + 1)[0]) for _ in range(2)]
            return f"{sides[0]} {self.chance.choice(('and', 'or'))} {sides[1]}", "truth"
        if way == 8:
            return f"not {self.group(self.truth(here, depth + 1)[0])}", "truth"
        return self.choice(here, "truth", depth) if here.blocks < 4 else self.atom(here, "truth")

    def structure(self, here, depth):
        made = self.atom(here, "structure")
        if made is None or self.often(0.2):
            return f"array {self.number_in(1, 4)}", "structure"
        return made

    def procedure(self, here, depth):
        return self.atom(here, "procedure")

    def choice(self, here, kind, depth):
        """An `if` with a value of this kind, or with two kinds."""
        control = self.truth(here, depth + 1)[0]
        waiting = [name.text for name in here.names if name.likely == "never"]
        if waiting and self.often(0.1):
            # A control of any kind, and nothing that it could send.
            control = next((name.text for name in here.names if name.kind is None), control)
            return f"if {control} {{ {waiting[0]} + {waiting[0]} }} else {{ {waiting[0]} }}", None
        if self.often(0.35):
            sides = [self.atom(here, kind) for _ in range(2)]
            if self.often(self.wrong):
                sides[1] = self.atom(here, self.chance.choice(("number", "truth")))
            sides = [(f"{{ {text} }}", known) for text, known in sides]
        else:
            sides = [self.side(here, kind) for _ in range(2)]
        (then, first), (other, second) = sides
        if self.often(0.15):
            last, known = self.side(here, kind)
            other = f"if {self.truth(here, depth + 1)[0]} {other} else {last}"
            second = second if second == known else None
        return f"if {control} {then} else {other}", first if first == second else None

    def side(self, here, kind):
        """A block with a value, and the kind of that."""
        inside = here.inside()
        items = self.items(inside, self.number_in(0, 2))
        text, known = self.value(inside, kind, 2)
        return self.braces(inside, items + [text]), known

    def braces(self, inside, lines):
        if len(lines) < 2 and "#" not in "".join(lines) and self.often(0.8):
            return "{ " + "".join(lines) + " }" if lines else "{ }"
        indent = "  " * inside.blocks
        return "{\n" + "".join(f"{indent}{line}\n" for line in lines) + indent[2:] + "}"

    # Items.

    def items(self, here, count):
        return [line for line in [self.item(here) for _ in range(count)] if line is not None]

    def item(self, here):
        self.room -= 1
        ways = [self.define, self.define, self.define, self.array, self.write, self.write, self.call_item]
        if here.blocks < 4 and self.room > 0:
            ways += [self.if_item, self.loop_item]
        if self.probing:
            ways += [self.probe] * 4
        text = self.chance.choice(ways)(here)
        return text + self.chance.choice(("", "", "", "", " # it is so")) if text else None

    def define(self, here):
        kind = self.chance.choice(("number",) * 5 + KINDS)
        made = self.value(here, kind)
        if made is None:
            return None
        return f"{self.name(here, made[1], kind, self.size_of(here, made[0], kind))} = {made[0]};"

    def probe(self, here):
        """A fault `zero` as often as a number comes."""
        names = [name for name in here.names if name.kind in ("number", None)][-4:]
        made = self.choice(here, "number", 2) if self.often(0.3) and here.blocks < 4 else None
        text = f"({made[0]})" if made is not None else self.chance.choice(names).text if names else "1"
        if made is not None and made[1] not in ("number", None):
            return None
        return f"{self.name(here, 'number', 'probe')} = {text} / 0;"

    def size_of(self, here, text, kind):
        """The likely length of a structure or number of parameters of a procedure that is given a name."""
        for name in here.names + self.procedures:
            if name.text == text:
                return name.size
        return 1 if kind == "procedure" else 3

    def array(self, here):
        """A structure with writes of its cells, one behind another or in a loop."""
        word, size = self.fresh(here), self.number_in(0 if self.often(0.05) else 1, 4)
        here.names.append(Name(word, "structure", "structure", size))
        lines = [f"{word} = array {size};"]
        if self.often(0.3) and here.loops < 2:
            inside = here.inside(1)
            counter = self.name(inside, "number", "number")
            items = self.items(inside, self.number_in(0, 1))
            items.append(f"{word}[{counter}] = {self.number(inside, 2)[0]};")
            lines.append(f"for {counter} in 0 .. {size} {self.braces(inside, items)}")
        else:
            for cell in range(size):
                if not self.often(self.unwritten):
                    kind = "number" if self.often(0.8) else self.chance.choice(("number", "truth"))
                    lines.append(f"{word}[{cell}] = {self.value(here, kind, 2)[0]};")
        return ("\n" + "  " * here.blocks).join(lines)

    def write(self, here):
        name = self.pick(here, "structure")
        if name is None or not self.often(self.twice):
            return None
        return f"{name.text}[{self.index(here, name, 2)}] = {self.number(here, 2)[0]};"

    def call_item(self, here):
        made = (self.deep_call(here) if self.often(0.1) else None) or self.call(here, 1)
        return f"{made[0]};" if made is not None else None

    def deep_call(self, here):
        """A call that nests about as deep as calls may."""
        found = [name for name in self.procedures if name.text in self.deep]
        if not found or here.loops > 1:
            return None
        called = self.chance.choice(found)
        return f"{called.text}({', '.join([str(self.number_in(59, 64))] + ['1'] * (called.size - 1))})", None

    def if_item(self, here):
        control = self.truth(here, 1)[0]
        bodies = []
        for _ in range(self.chance.choice((1, 2, 2))):
            inside = here.inside()
            bodies.append(self.braces(inside, self.items(inside, self.number_in(0, 2))))
        return f"if {control} " + " else ".join(bodies) + self.chance.choice(("", "", ";"))

    def loop_item(self, here):
        if here.loops > 1:
            return None
        # Behind a `give` what comes next could be read as its arguments.
        gives = self.often(0.3)
        return self.loop(here, gives)[0] + (";" if gives else self.chance.choice(("", ";")))

    # Loops.

    def loop(self, here, gives):
        """A loop that turns a few times, as a rule."""
        inside = here.inside(1)
        counter = self.fresh(inside)
        count = str(self.number_in(0, 4))
        if self.often(0.2):
            count = f"{self.group(self.atom(here, 'number')[0])} % {self.number_in(1, 5)}"
        begins = [Name(counter, "number", "number", None)]
        starts, up = [], self.often(0.5)
        for _ in range(self.number_in(0, 3)):
            kind = self.chance.choice(("number",) * 4 + ("truth", "structure"))
            made = self.value(here, kind, 2) if self.often(0.7) else self.atom(here, kind) or ("array 2", "structure")
            taken = Here(inside.names + begins)
            begins.append(Name(self.fresh(taken), made[1], kind, 3))
            starts.append(f"{begins[-1].text} = {made[0]}")
        inside.names += begins
        counts = self.often(0.4)
        if counts:
            starts.insert(0, f"for {counter} in 0 .. {count}")
        else:
            # The one that counts stands anywhere among the variables.
            starts.insert(self.number_in(0, len(starts)), f"{counter} = {'0' if up else count}")
            starts[0] = f"loop {starts[0]}"
        test = "" if counts else f" while {self.test(inside, counter, count if up else None)}"
        items = self.items(inside, self.number_in(0, 2))
        # A next value may use what is defined before it.
        nexts = [self.next(inside, name) for name in begins[1:]]
        self.chance.shuffle(nexts)
        items += nexts
        if not counts:
            items.insert(self.number_in(0, len(items)), f"next {counter} = {counter} {'+' if up else '-'} 1;")
        text = ", ".join(starts) + test + " " + self.braces(inside, items)
        if not gives:
            return text, None
        given = Here(here.names + begins, here.blocks, here.loops)
        name = self.chance.choice(begins)
        value = (name.text, name.kind) if self.often(0.5) and name.likely == "number" else self.number(given, 2)
        return f"{text} give {value[0]}", value[1]

    def test(self, inside, counter, limit):
        plain = f"{counter} < {limit}" if limit is not None else f"0 < {counter}"
        way = self.number_in(0, 14 if self.never else 19)
        if way == 0:
            return f"if {self.truth(inside, 2)[0]} {{ {plain} }} else {{ false }}"
        if way == 1:
            return f"{plain} and {self.group(self.truth(inside, 2)[0])}"
        if way == 2:
            # No variable stands in the test outside of sides, so the first one is the clock.
            return f"if true {{ {plain} }} else {{ 1 < 0 }}"
        if way == 3 and self.wrong:
            return self.atom(inside, "truth")[0]
        if way == 4:
            return self.chance.choice(("false", "1 < 0"))
        return plain

    def next(self, inside, name):
        made = self.value(inside, name.likely, 2)
        if made is None or (name.kind is not None and made[1] not in (None, name.kind)):
            return f"next {name.text} = {name.text};"
        return f"next {name.text} = {made[0]};"

    # Procedures.

    def recursive(self, name, takes):
        """A procedure that calls itself with one less."""
        words = self.chance.sample(WORDS, takes)
        here = Here([Name(word, None, "number", None) for word in words], 1)
        first = words[0]
        self.room = 8
        items = self.items(here, self.number_in(0, 2))
        calls = [f"{name}({', '.join([f'{first} - {step}'] + words[1:])})"
                 for step in range(1, self.chance.choice((2, 2, 3)))]
        if len(calls) == 1:
            self.deep.add(name)
        value = f"if {first} <= 0 {{ {self.atom(here, 'number')[0]} }} else {{ {' + '.join(calls)} }}"
        return words, self.braces(here, items + [value])

    def plain(self, takes):
        words = self.chance.sample(WORDS, takes)
        likely = [self.chance.choice(("number",) * 3 + KINDS) for _ in words]
        here = Here([Name(word, None, kind, 1 if kind == "procedure" else 3)
                     for word, kind in zip(words, likely)], 1)
        self.room = 10
        items = self.waiting(here) + self.items(here, self.number_in(0, 2))
        return words, self.braces(here, items + [self.number(here, 1)[0]])

    def source(self):
        parts = []
        for name in ("one", "two", "three")[:self.chance.choice((0, 1, 1, 2, 3))]:
            takes = self.number_in(1, 4 if self.often(0.3) else 2)
            words, body = self.recursive(name, takes) if self.often(0.3) else self.plain(takes)
            parts.append(f"def {name}({', '.join(words)}) {body}\n")
            self.procedures.append(Name(name, "procedure", "procedure", takes))
        here = Here([Name("n", None, "number", None)], 1)
        self.room = self.number_in(10, 60)
        items = self.waiting(here) + self.items(here, self.number_in(1, 6))
        value = self.value(here, "number" if self.often(0.9) else "truth", 1)[0]
        parts.append(f"def main(n) {self.braces(here, items + [value])}\n")
        self.chance.shuffle(parts)
        return "".join(parts)


def make_source(chance):
    """The text of a random source."""
    return Maker(chance, chance.random() < 0.25).source()


# Damage.

PIECES = ("def if else loop while for in next give array length and or not true false .. <= >= == != ( ) { } [ ] , ; = "
          "+ - * / % < > 0 1 7 00 9223372036854775807 9223372036854775808 99999999999999999999 1x a n main x "
          "abcdefghijklmnop abcdefghijklmnopq _ A ! . & @").split()


def words_of(text):
    """The text cut into words, and each sign and what else stands between them."""
    return re.findall(r"\w+|\W", text)


def cut(words, chance):
    del words[chance.randrange(len(words)):]


def drop(words, chance):
    at = chance.randrange(len(words))
    del words[at:at + chance.choice((1, 1, 1, 2, 5))]


def put(words, chance):
    words.insert(chance.randrange(len(words)), f" {chance.choice(PIECES)} ")


def replace(words, chance):
    words[chance.randrange(len(words))] = chance.choice(PIECES)


def repeat(words, chance):
    at = chance.randrange(len(words))
    words[at:at] = words[at:at + chance.choice((1, 3, 10, 30))]


def exchange(parts, chance):
    first, second = chance.randrange(len(parts)), chance.randrange(len(parts))
    parts[first], parts[second] = parts[second], parts[first]


def rename(words, chance):
    """Writes one name where another one stands."""
    names = [at for at, word in enumerate(words) if word.isalnum() and word[0].isalpha()]
    if names:
        words[chance.choice(names)] = words[chance.choice(names)]


def exchange_lines(words, chance):
    lines = "".join(words).split("\n")
    exchange(lines, chance)
    words[:] = words_of("\n".join(lines))


def nest(words, chance):
    """Puts something into many brackets."""
    at, many = chance.randrange(len(words)), chance.choice((20, 55, 58, 59, 60, 61, 70, 500))
    before, behind = chance.choice((("(", ")"), ("[", "]"), ("-", ""), ("not ", ""), ("if n < 1 { ", "} else { 1 }")))
    words[at] = before * many + words[at] + behind * many


def spoil_byte(words, chance):
    words.insert(chance.randrange(len(words)), chr(chance.randrange(256)))


def damage(text, chance):
    """The bytes of a source after one to three changes."""
    words = words_of(text)
    for _ in range(chance.choice((1, 1, 1, 2, 3))):
        if words:
            chance.choice((cut, drop, drop, put, put, replace, replace, repeat, exchange, rename, rename, rename,
                           exchange_lines, nest, spoil_byte))(words, chance)
    return "".join(words).encode("latin-1")
