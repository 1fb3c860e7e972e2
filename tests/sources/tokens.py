"""The tokens of a source, and the error that a source is refused with."""
import collections
import re

KEYWORDS = set("def if else loop while for in next give array length and or not true false".split())
# What a source is made of: its lines, spaces and comments, words, signs, and bytes that are not allowed.
PIECE = re.compile(r"\n|[ \t]+|#[^\n]*|(?P<word>[a-z0-9_]+)|(?P<sign>\.\.|[<>=!]=|[-(){}\[\],;=+*/%<>])|(?P<other>.)")
LONGEST_NAME = 16
LARGEST = 2 ** 63

# Its place in the list of tokens, its kind (`name`, `number`, `sign` or `end`), its text, its line and column.
Token = collections.namedtuple("Token", "number kind text line column")


class Refused(Exception):
    """A source is refused: the line and the column, from 1, and why."""

    def __init__(self, line, column, text):
        super().__init__(f"source line {line} column {column}: {text}")


def refuse(token, text):
    """Refuses the source at a token."""
    raise Refused(token.line, token.column, text)


def shown(token):
    """A token as an error names it."""
    if token.kind in ("name", "number"):
        return f"the name `{token.text}`" if token.kind == "name" else f"the number {token.text}"
    return "the end" if token.kind == "end" else f"`{token.text}`"


def word_kind(word):
    """The kind of a word, and why it is refused, or None."""
    if word[0].isalpha():
        if word in KEYWORDS:
            return "sign", None
        return "name", "name has more than 16 bytes" if len(word) > LONGEST_NAME else None
    if word[0] == "_":
        return "name", "byte not allowed"
    if not word.isdigit() or (word[0] == "0" and word != "0"):
        return "number", "number not allowed"
    return "number", "number out of range" if int(word) > LARGEST else None


def read_tokens(source):
    """The tokens of a source, which is bytes, and behind them one of the kind `end`."""
    text = source.decode("latin-1")
    tokens, line, start = [], 1, 0
    for found in PIECE.finditer(text):
        kind, fault = found.lastgroup, None
        if found[0] == "\n":
            line, start = line + 1, found.end()
        if kind == "word":
            kind, fault = word_kind(found[0])
        elif kind == "other":
            fault = "byte not allowed"
        if kind:
            tokens.append(Token(len(tokens), kind, found[0], line, found.start() - start + 1))
        if fault:
            refuse(tokens[-1], fault)
    return tokens + [Token(len(tokens), "end", "", line, len(text) - start + 1)]
