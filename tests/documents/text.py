"""A document in Markdown: its headings, code blocks, texts in backticks, links and tables, each with its line number."""

import re
from collections import namedtuple

Heading = namedtuple("Heading", "line anchor")
Block = namedtuple("Block", "line lines")  # a code block: the number of its first line, and its lines without the indent
Span = namedtuple("Span", "line text start end")  # a text in backticks, with its place in the prose
Link = namedtuple("Link", "line target")
Table = namedtuple("Table", "line head rows")
Row = namedtuple("Row", "line cells")

INDENT = re.compile(r" {4,}\S")
FENCE = re.compile(r" {0,8}(```+|~~~+)")
HEADING = re.compile(r"#{1,6} +(.*?)(?: +#+)? *$")

# A text in backticks ends in its paragraph, its item of a list, or its row of a table.
SAME_PARAGRAPH = r"(?:(?!\n *(?:\n|\||#|- |[0-9]+\. )).)"
SPAN = re.compile(r"(?<!`)(`+)(?!`)(%s+?)(?<!`)\1(?!`)" % SAME_PARAGRAPH, re.DOTALL)
LINK = re.compile(r"\[((?:(?!\n *\n)[^\[\]])*)\]\(([^()\s]*)\)")


class Document:
    def __init__(self, name, text):
        self.name = name
        self.lines = text.split("\n")
        if self.lines[-1] == "":
            self.lines.pop()
        self.blocks = find_blocks(self.lines)
        self.prose = "\n".join(without_blocks(self.lines, self.blocks))
        self.spans = [self.span(found) for found in SPAN.finditer(self.prose)]
        self.without_code = blank_out(self.prose, self.spans)
        self.headings = find_headings(self.prose.split("\n"))
        self.anchors = {heading.anchor for heading in self.headings}
        self.links = [Link(self.line_at(found.start()), found[2]) for found in LINK.finditer(self.without_code)]
        self.tables = find_tables(self.prose.split("\n"))

    def line_at(self, place):
        """The number of the line at a place of the prose, from 1 on."""
        return self.prose.count("\n", 0, place) + 1

    def span(self, found):
        text = re.sub(r"\s*\n\s*", " ", found[2])
        return Span(self.line_at(found.start()), text.strip() or text, found.start(), found.end())

    def between(self, left, right):
        """The prose between two texts in backticks, with one blank for each line end and its indent."""
        return re.sub(r"\s+", " ", self.prose[left.end : right.start])

    def section_of(self, line):
        """The number of the last heading at or above a line, 0 if there is none."""
        return sum(heading.line <= line for heading in self.headings)


def find_blocks(lines):
    """Fenced blocks, and indented blocks below an empty line."""
    blocks = []
    number = 0
    while number < len(lines):
        fence = FENCE.match(lines[number])
        if fence:
            end = next((i for i in range(number + 1, len(lines)) if closes(lines[i], fence[1])), len(lines))
            blocks.append(Block(number + 2, dedented(lines[number + 1 : end])))
            number = end + 1
        elif INDENT.match(lines[number]) and (number == 0 or lines[number - 1].strip() == ""):
            end = end_of_indented(lines, number)
            blocks.append(Block(number + 1, dedented(lines[number:end])))
            number = end
        else:
            number += 1
    return blocks


def closes(line, fence):
    return line.strip().startswith(fence) and line.strip(" " + fence[0]) == ""


def end_of_indented(lines, start):
    """The number of the line after the last indented line. Empty lines between indented lines belong to the block."""
    end = start
    for number in range(start, len(lines)):
        if INDENT.match(lines[number]):
            end = number + 1
        elif lines[number].strip():
            break
    return end


def dedented(lines):
    indent = min((len(line) - len(line.lstrip(" ")) for line in lines if line.strip()), default=0)
    return [line[indent:] for line in lines]


def without_blocks(lines, blocks):
    """The lines, with an empty line for each line of a code block and of its fences."""
    kept = list(lines)
    for block in blocks:
        for number in range(block.line - 1, block.line - 1 + len(block.lines)):
            kept[number] = ""
    return ["" if FENCE.match(line) else line for line in kept]


def blank_out(prose, spans):
    """The prose with a dot for each backtick and each character between backticks, so that no link is found there."""
    for span in spans:
        dots = re.sub(r"[^\n]", ".", prose[span.start : span.end])
        prose = prose[: span.start] + dots + prose[span.end :]
    return prose


def anchor_of(text):
    """The anchor that GitHub makes of a heading."""
    text = re.sub(r"\[([^\[\]]*)\]\([^()]*\)", r"\1", text)
    return re.sub(r"[^\w\- ]", "", text.lower()).replace(" ", "-")


def find_headings(lines):
    """All headings. If two have the same anchor, the second gets a number after it."""
    headings = []
    times = {}
    for number, line in enumerate(lines, 1):
        found = HEADING.match(line)
        if found:
            anchor = anchor_of(found[1])
            count = times.get(anchor, 0)
            times[anchor] = count + 1
            headings.append(Heading(number, anchor if count == 0 else "%s-%d" % (anchor, count)))
    return headings


def cells_of(line):
    cells = re.split(r"(?<!\\)\|", line.strip().strip("|") if line.strip() != "|" else "")
    return [cell.strip().replace(r"\|", "|") for cell in cells]


def find_tables(lines):
    tables = []
    for number, line in enumerate(lines):
        if re.match(r" *\|", line) and number > 0 and re.fullmatch(r" *\|[-:| ]+\|? *", line):
            rows = []
            for below in range(number + 1, len(lines)):
                if not re.match(r" *\|", lines[below]):
                    break
                rows.append(Row(below + 1, cells_of(lines[below])))
            tables.append(Table(number, cells_of(lines[number - 1]), rows))
    return tables
