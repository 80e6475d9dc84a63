"""control_chart with the model in the program's place:

    by_model.py FILE COMMAND ..     one command on the chart in FILE
    by_model.py                     commands on standard input

The model does not know help, the version, a lock, a link, or a file that cannot be read or written. Such a call goes to the
program itself, which the variable PROGRAM names. For each call that the model answers, one byte goes into the file ANSWERED.
"""

import os
import sys

sys.path.insert(0, os.path.join(os.path.dirname(os.path.dirname(os.path.abspath(__file__))), "model"))

import files  # noqa: E402
from transcript import NOT_FILES, Session  # noqa: E402


def knows(arguments):
    """Whether the model can answer: FILE is missing in a folder that is there, or is a file with all rights."""
    name = arguments[0]
    if name in NOT_FILES or name.startswith("-") or name == "" or any("\n" in text for text in arguments):
        return False
    changes = files.may_change(" ".join(arguments[1:]).encode("utf-8"))
    if changes and (os.path.lexists(name + ".lock") or os.path.islink(name)):
        return False
    if not os.path.lexists(name):
        return os.path.isdir(os.path.dirname(name) or ".")
    return os.path.isfile(name) and os.access(name, os.R_OK | (os.W_OK if changes else 0))


def on_file(session, name, arguments):
    """One command: the bytes of FILE are read before it and written after it."""
    if os.path.exists(name):
        with open(name, "rb") as file:
            session.files[name] = file.read()
    held = session.files.get(name)
    text = session.file_command(name, arguments)
    if session.files.get(name) != held:
        with open(name, "wb") as file:
            file.write(session.files[name])
    return text


def main(arguments):
    if arguments and not knows(arguments):
        os.execv(os.environ["PROGRAM"], ["control_chart", *arguments])
    session = Session()
    text = on_file(session, arguments[0], arguments[1:]) if arguments else session.input_commands(sys.stdin.read())
    with open(os.environ["ANSWERED"], "a") as file:
        file.write(".")
    about_file = arguments and text.startswith("error: %s: " % arguments[0])
    (sys.stderr if about_file else sys.stdout).write(text)
    return session.status


if __name__ == "__main__":
    sys.exit(main(sys.argv[1:]))
