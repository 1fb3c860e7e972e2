#!/usr/bin/env python3
"""Lists the definitions that a page of `specs/` rests on, its own first: for each page how many lines of it they
have, of how many, and their names. Lines are those of code, without comments, imports and empty lines.

    tests/definitions.py u_world/Headline            the list, and how many lines there are in all
    tests/definitions.py u_world/Headline --text     the definitions themselves, to be read from first to last
"""
import functools
import os
import re
import signal
import sys

USE = re.compile(r"^use Rattle\.(u_\w+)\.specs\.(\w+)(?:\.\{(.*)\})?", re.M)
NAME = re.compile(r"^(?:  (?=abbrev |unfoldable ))?(?:(?:abbrev|unfoldable|pub|data|record) )*([^\s({:}]+)|^  ([A-Z]\w*) :", re.M)
WORD = re.compile(r"[^\s(){}\[\],;.λ|]+")


@functools.cache
def read(page):
    """The definitions of a page, each a paragraph, by the names that it gives; and where other names come from."""
    crate, name = page.split("/")
    try:
        with open(f"crates/{crate}/specs/{name}.antt", encoding="utf-8") as file:
            text = file.read()
    except FileNotFoundError:
        return {}, {}, 0
    paragraphs = [it for it in text.split("\n\n") if not it.startswith("use ") and lines_of(it)]
    given = {(one or other).strip("◌"): it for it in paragraphs for one, other in NAME.findall(code_of(it))}
    taken = {}
    for crate, other, names in USE.findall(text):
        for it in names.split(", ") if names else read(f"{crate}/{other}")[0]:
            first, _, alias = it.partition(" as ")
            taken[(alias or first).strip("◌")] = (f"{crate}/{other}", first)
    return given, taken, sum(map(lines_of, paragraphs))


def code_of(text):
    return "\n".join(line for line in text.splitlines() if line.strip() and not line.startswith(("--", "use ")))


def lines_of(text):
    return len(code_of(text).splitlines())


def reached(page):
    """The paragraphs that the page's own rest on, by page, in the order in which a reader meets them."""
    found, left = {}, [(page, name) for name in read(page)[0]]
    while left:
        page, name = left.pop(0)
        given, taken, _ = read(page)
        text = given.get(name)
        if text is None or text in found.setdefault(page, {}):
            continue
        found[page][text] = [it for it in given if given[it] == text]
        for word in WORD.findall(code_of(text)):
            left += [taken[word]] if word in taken else [(page, word)] if word in given else []
    return {page: texts for page, texts in found.items() if texts}


def main(page, *how):
    found = reached(page)
    if not found:
        sys.exit(f"there is no page {page}")
    for it, texts in found.items():
        if how:
            print(f"-- {it}", *texts, sep="\n\n", end="\n\n")
        else:
            names = " ".join(name for names in texts.values() for name in names)
            print(f"{sum(map(lines_of, texts)):5} of {read(it)[2]:4} {it}: {names}")
    print(f"{len(found)} pages, {sum(lines_of(text) for texts in found.values() for text in texts):,} lines")


if __name__ == "__main__":
    if len(sys.argv) < 2 or "/" not in sys.argv[1] or sys.argv[2:] not in ([], ["--text"]):
        sys.exit(__doc__)
    os.chdir(os.path.dirname(os.path.dirname(os.path.abspath(__file__))))
    signal.signal(signal.SIGPIPE, signal.SIG_DFL)
    main(*sys.argv[1:])
