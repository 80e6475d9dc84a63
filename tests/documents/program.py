"""What `control_chart help` lists: commands with their answers, refusals, verdicts."""

import re

COMMANDS_BEGIN = re.compile(r"command +answer$")
NO_COMMANDS = ("any, refused", "anything else")
REFUSALS_BEGIN = re.compile(r"refused N:$")
VERDICTS_BEGIN = re.compile(r"verdict V:$")
NUMBER_AND_TEXT = re.compile(r" ?([0-9]+)  (\S.*)")


def rows_below(lines, head):
    """The lines below the head, each with its number, up to the first empty one."""
    start = next((number for number, line in enumerate(lines) if head.match(line)), len(lines))
    for number in range(start + 1, len(lines)):
        if lines[number] == "":
            return
        yield number + 1, lines[number]


def table(lines):
    """The rows of the table of commands as cells. A row that continues another has an empty first cell."""
    return [re.split(r"  +", line) for _, line in rows_below(lines, COMMANDS_BEGIN)]


def commands(lines):
    """The commands with what they take, such as `word K A B C`."""
    return [cells[0] for cells in table(lines) if cells[0] and cells[0] not in NO_COMMANDS]


def forms(lines):
    """The commands, alone and with what they take, and the answers."""
    found = set()
    for cells in table(lines):
        found.update(cells[0].split(" ")[:1], cells[:1], *(cell.split(" | ") for cell in cells[1:2]))
    return found - {""}


def numbered(lines, head):
    """The rows with a number and its text: (line, number, text)."""
    rows = []
    for line, text in rows_below(lines, head):
        found = NUMBER_AND_TEXT.fullmatch(text)
        if not found:
            break
        rows.append((line, int(found[1]), found[2]))
    return rows


def refusals(lines):
    return numbered(lines, REFUSALS_BEGIN)


def verdicts(lines):
    return numbered(lines, VERDICTS_BEGIN)
