"""The examples in documents: a text of an example is the file itself, and README's transcript is what examples/day.sh prints."""

import os
import subprocess
import tempfile

from transcripts import is_transcript

README = "README.md"
DAY_SH = "examples/day.sh"
TIME_MOST = 60

# The document, the file, and how a line of the block begins, by which it is found.
TEXTS = ((README, "examples/day.c", "#include"), ("docs/REFUSALS.md", "examples/post_results.sh", "#!"))


def printed(tree):
    """The lines that the day in shell prints with the program of the tree, without blanks at their ends."""
    with tempfile.TemporaryDirectory() as folder:
        path = os.path.dirname(tree.program) + os.pathsep + os.environ.get("PATH", os.defpath)
        try:
            done = subprocess.run(["sh", os.path.join(tree.root, DAY_SH), folder], env={**os.environ, "PATH": path},
                                  stdin=subprocess.DEVNULL, stdout=subprocess.PIPE, stderr=subprocess.STDOUT, timeout=TIME_MOST)
        except subprocess.TimeoutExpired:
            return []
    return [line.rstrip() for line in done.stdout.decode("utf-8", "replace").rstrip("\n").split("\n")]


def compare(document, blocks, what, expected, faults):
    """The document has one such block, and it has the lines that are expected."""
    if len(blocks) != 1:
        faults.add(document.name, 0, "%d blocks of %s" % (len(blocks), what), "one")
        return 0
    stands = [line.rstrip() for line in blocks[0].lines]
    for number in range(max(len(stands), len(expected))):
        found = stands[number] if number < len(stands) else "no such line"
        wanted = expected[number] if number < len(expected) else "no such line"
        if found != wanted:
            faults.add(document.name, blocks[0].line + number, found, "%s (of %s)" % (wanted, what))
            break
    return len(stands)


def check(tree, faults):
    readme = tree.documents[README]
    count = compare(readme, list(filter(is_transcript, readme.blocks)), DAY_SH, printed(tree), faults)
    for name, file, begins in TEXTS:
        document = tree.documents[name]
        blocks = [block for block in document.blocks if any(line.startswith(begins) for line in block.lines)]
        count += compare(document, blocks, file, tree.read(file).rstrip("\n").split("\n"), faults)
    return {"lines of examples": count}
