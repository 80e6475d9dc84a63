"""Transcripts: the commands of a document are run, and must print what the document has below them.

A code block in which a line begins with `$ ` is a transcript. All commands of one document run in order, in one shell and
one new folder. A line that ends in a backslash goes on in the next line. The lines below a command are what it prints, on
standard output and standard error, up to the next `$ ` or the end of the block. Blanks at line ends and empty lines at the
end do not count. A line that begins with `# ` is a remark. `# status N` gives the exit status, which is compared.

Every document is run twice: with the program, and with the model in the program's place.
"""

import os
import re
import signal
import subprocess
import sys
import tempfile
from collections import namedtuple

import program

BENCH = "docs/BENCH.md"
DOCUMENTS = ("README.md", BENCH, "docs/REFUSALS.md")
TIME_MOST = 60

# Commands for the tree itself, which a transcript does not run.
NOT_RUN = re.compile(r"(?:make|rt|git|sudo|\.ci/run)(?![\w.-])|\./|tests/")
STATUS = re.compile(r"# status ([0-9]+)\b")

MARK = "-- end of a command, with status"
BY_MODEL = os.path.join(os.path.dirname(os.path.abspath(__file__)), "by_model.py")

# A command: its line, the command itself, the lines below it as (line, text), and the statuses in the remarks below it.
Command = namedtuple("Command", "line text below statuses")
Came = namedtuple("Came", "lines status")


def is_transcript(block):
    return any(line.startswith("$ ") for line in block.lines)


def commands_of(document, faults):
    commands = []
    for block in filter(is_transcript, document.blocks):
        if not block.lines[0].startswith("$ "):
            faults.add(document.name, block.line, block.lines[0], "`$ ` at the begin of a transcript")
        commands += commands_in(block)
    for command in commands:
        if NOT_RUN.match(command.text):
            faults.add(document.name, command.line, "$ %s" % command.text, "no `$ ` before a command for the tree")
    return [command for command in commands if not NOT_RUN.match(command.text)]


def commands_in(block):
    commands = []
    goes_on = False
    for number, line in enumerate(block.lines, block.line):
        if goes_on:
            last = commands.pop()
            commands.append(last._replace(text="%s\n%s" % (last.text, line)))
        elif line.startswith("$ "):
            commands.append(Command(number, line[2:], [], []))
        elif commands and line.startswith("# "):
            commands[-1].statuses.extend((number, int(status)) for status in STATUS.findall(line))
        elif commands:
            commands[-1].below.append((number, line.rstrip()))
        goes_on = bool(commands) and (goes_on or line.startswith("$ ")) and line.endswith("\\")
    return [command._replace(below=without_end(command.below)) for command in commands]


def without_end(rows):
    """Rows without the empty ones at the end."""
    while rows and rows[-1][-1] == "":
        rows = rows[:-1]
    return rows


def script_of(commands):
    """The commands as a script. After each it prints a mark with the exit status, and leaves that status as it is."""
    mark = "after_each() { set -- $?; printf '\\n%s %s\\n' '{}' \"$1\"; return \"$1\"; }".replace("{}", MARK)
    return "\n".join(["exec 2>&1", mark, *("%s\nafter_each" % command.text for command in commands), ""])


def run(commands, folder, tools, more):
    """What each command prints and its exit status, in this order; fewer if the shell ended early."""
    script = os.path.join(tools, "script")
    with open(script, "w", encoding="utf-8") as file:
        file.write(script_of(commands))
    environment = {"PATH": tools + os.pathsep + os.environ.get("PATH", os.defpath), "LC_ALL": "C", "HOME": folder, **more}
    shell = subprocess.Popen(["sh", script], cwd=folder, env=environment, stdin=subprocess.DEVNULL,
                             stdout=subprocess.PIPE, start_new_session=True)
    try:
        output, _ = shell.communicate(timeout=TIME_MOST)
    except subprocess.TimeoutExpired:
        os.killpg(shell.pid, signal.SIGKILL)  # the shell, and what it has started
        output, _ = shell.communicate()
    return came_of(output.decode("utf-8", "replace"))


def came_of(output):
    parts = re.split(r"\n%s ([0-9]+)\n" % re.escape(MARK), output)
    return [Came(lines_of(text), int(status)) for text, status in zip(parts[0::2], parts[1::2])]


def lines_of(text):
    return [line for line, in without_end([(line.rstrip(),) for line in text.split("\n")])]


def with_program(tree, commands):
    with tempfile.TemporaryDirectory() as tools, tempfile.TemporaryDirectory() as folder:
        os.symlink(tree.program, os.path.join(tools, "control_chart"))
        return run(commands, folder, tools, {})


def with_model(tree, commands):
    """The same with the model, and how many calls the model answered."""
    with tempfile.TemporaryDirectory() as tools, tempfile.TemporaryDirectory() as folder:
        answered = os.path.join(tools, "answered")
        path = os.path.join(tools, "control_chart")
        with open(path, "w", encoding="utf-8") as file:
            file.write("#!/bin/sh\nexec '%s' -B -E -S '%s' \"$@\"\n" % (sys.executable, BY_MODEL))
        os.chmod(path, 0o755)
        came = run(commands, folder, tools, {"PROGRAM": tree.program, "ANSWERED": answered})
        return came, os.path.getsize(answered) if os.path.exists(answered) else 0


def compare(document, commands, came, who, faults):
    for number, command in enumerate(commands):
        if number >= len(came):
            faults.add(document.name, command.line, "$ %s" % command.text, "a command that ends (with the %s)" % who)
            return
        compare_lines(document, command, came[number], who, faults)
        for line, status in command.statuses:
            if status != came[number].status:
                faults.add(document.name, line, "status %d" % status, "status %d (of the %s)" % (came[number].status, who))


def compare_lines(document, command, came, who, faults):
    """The first line that differs."""
    stands = [text for _, text in command.below]
    if stands == came.lines:
        return
    at = next((i for i, (a, b) in enumerate(zip(stands, came.lines)) if a != b), min(len(stands), len(came.lines)))
    line, found = command.below[at] if at < len(stands) else (command.line, "no such line below `$ %s`" % command.text)
    expected = came.lines[at] if at < len(came.lines) else "no such line"
    faults.add(document.name, line, found, "%s (from the %s)" % (expected, who))


def check_document(tree, document, faults):
    """How many commands it has, and how many calls the model answered."""
    commands = commands_of(document, faults)
    if not commands:
        return 0, 0
    compare(document, commands, with_program(tree, commands), "program", faults)
    came, answered = with_model(tree, commands)
    compare(document, commands, came, "model", faults)
    return len(commands), answered


def check_elsewhere(tree, faults):
    """Only the commands of the documents above are run, so no other document has transcripts."""
    for document in tree.documents.values():
        if document.name not in DOCUMENTS:
            for block in filter(is_transcript, document.blocks):
                faults.add(document.name, block.line, "a block with `$ `", "transcripts in %s only" % ", ".join(DOCUMENTS))


def check_table(tree, faults):
    """The table of BENCH with the head Command: its first column has the commands of help."""
    rows = {row.cells[0].strip("`"): row.line for table in tree.documents[BENCH].tables if table.head[0] == "Command"
            for row in table.rows if row.cells[0].startswith("`")}
    listed = program.commands(tree.help)
    for command, line in rows.items():
        if command not in listed:
            faults.add(BENCH, line, "the command `%s`" % command, "a command of `control_chart help`, as it stands there")
    for command in listed:
        if command not in rows:
            faults.add(BENCH, 0, "no row of the command `%s`" % command, "a table with the head Command that has it")
    if not listed:
        faults.add("control_chart help", 0, "no table of commands", "one; make target/bin/control_chart makes the program")
    return len(listed)


def check(tree, faults):
    check_elsewhere(tree, faults)
    counts = [check_document(tree, tree.documents[name], faults) for name in DOCUMENTS]
    return {"commands run": sum(commands for commands, _ in counts),
            "calls of the model": sum(answered for _, answered in counts),
            "commands of help": check_table(tree, faults)}
