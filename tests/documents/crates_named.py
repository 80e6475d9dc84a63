"""Every crate of crates.txt is named in a drawing of README, or in docs/LIBRARY.md."""

import re

CRATES = "crates.txt"
README = "README.md"
LIBRARY = "docs/LIBRARY.md"

# `words: rules`, or of a static library `words_c staticlib: words rules`.
LINE = re.compile(r"([a-z_0-9]+)(?: [^:#]*)?:")


def crates_in(text):
    found = [(number, LINE.match(line)) for number, line in enumerate(text.split("\n"), 1)]
    return [(number, match[1]) for number, match in found if match]


def names_in(document):
    """The texts in backticks, and those in code blocks: a crate such as `lines` is an English word elsewhere."""
    texts = [span.text for span in document.spans] + [line for block in document.blocks for line in block.lines]
    return {name for text in texts for name in re.findall(r"\w+", text)}


def check(tree, faults):
    named = names_in(tree.documents[README]) | names_in(tree.documents[LIBRARY])
    crates = crates_in(tree.read(CRATES))
    for line, crate in crates:
        if crate not in named:
            faults.add(CRATES, line, "the crate `%s`" % crate, "a crate that %s or %s names" % (README, LIBRARY))
    return {"crates": len(crates)}
