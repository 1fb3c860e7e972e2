#!/usr/bin/env python3
"""Prints the promises in the comments of the crates, sorted by crate: `crate  name  file:item  sentence`.

A promise is a paragraph `/// Promise NAME: SENTENCE` above the item whose contract carries it. The script fails on a
name that stands twice, on one that a document says (promise `NAME`, or an anchor in docs/THEOREMS.md) and no crate
has, and on a link to a place that docs/THEOREMS.md does not have. The last line is 'N passed, M failed'."""
import re
import sys
from collections import Counter
from pathlib import Path

TOP = Path(__file__).resolve().parent.parent
THEOREMS = TOP / "docs" / "THEOREMS.md"
ITEM = re.compile(r"\s*(?:pub(?:\(\w+\))? )?(?:const |unsafe )*(?:fn|struct|enum|trait|type) (\w+)")


def promises_of(path):
    """The names, items and sentences of the promises in the file."""
    found, words = [], None
    for line in path.read_text().split("\n"):
        comment = re.fullmatch(r"\s*///(.*)", line)
        text = comment[1].strip() if comment else ""
        begun = re.match(r"Promise ([a-z0-9-]+): (.*)", text)
        if begun:
            words = [begun[2]]
            found.append([begun[1], "", words])
        elif text and words:
            words.append(text)
        else:
            words = None
        item = None if comment else ITEM.match(line)
        for promise in found if item else []:
            promise[1] = promise[1] or item[1]
    return [(name, item, " ".join(words)) for name, item, words in found]


lines, count, faults, cited = [], Counter(), [], 0
for path in (TOP / "crates").glob("*/src/**/*.rt"):
    for name, item, sentence in promises_of(path):
        count[name] += 1
        lines.append(f"{path.relative_to(TOP / 'crates').parts[0]}  {name}  {path.name}:{item}  {sentence}")
print("\n".join(sorted(lines)))
faults += [f"{name} stands {times} times" for name, times in count.items() if times > 1]
page = THEOREMS.read_text()
anchors = re.findall(r'<a id="([a-z0-9-]+)"', page)
titles = [re.sub(r"[^a-z0-9 _-]", "", title.lower()).replace(" ", "-") for title in re.findall(r"(?m)^#+ (.*)", page)]
for path in [TOP / "README.md", TOP / "CONTRIBUTING.md", *(TOP / "docs").rglob("*.md")]:
    text, at = path.read_text(), path.relative_to(TOP)
    names = anchors if path == THEOREMS else []
    for said in re.findall(r"\bpromises? ((?:`[a-z0-9-]+`(?:, | and )?)+)", text):
        names = names + re.findall(r"`([a-z0-9-]+)`", said)
    links = re.findall(r"\]\(#([a-z0-9-]+)" if path == THEOREMS else r"THEOREMS\.md#([a-z0-9-]+)", text)
    cited += len(names) + len(links)
    faults += [f"{at}: no promise {name}" for name in names if name not in count]
    faults += [f"{at}: no place {link} in docs/THEOREMS.md" for link in links if link not in anchors + titles]
sys.stderr.writelines(f"{fault}\n" for fault in faults)
print(f"{len(count) + cited - len(faults)} passed, {len(faults)} failed")
sys.exit(1 if faults else 0)
