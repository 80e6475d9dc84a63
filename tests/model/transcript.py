"""Answers to the commands of a transcript, in order: the files that the commands make are kept between them.

    session = Session()
    # control_chart lead.chart post 2 1002 1000 0
    session.file_command("lead.chart", ["post", "2", "1002", "1000", "0"])
    # printf 'word 1 65 63 0\\n' | control_chart
    session.input_commands("word 1 65 63 0\\n")

Each gives the text that the program prints on standard output and standard error, with a line feed after each line.
After it, `session.status` is the exit status. `session.files` has the bytes of each file by its name; the caller may
copy, change and remove files there. Every file can be read and written, and no other command is at work on it.
"""

import commands
import files

# A call with one of these in the place of FILE is no command on a file.
NOT_FILES = ("word", "build", "post", "reanalyse", "correct", "renew", "lines", "write", "read", "show", "help")


class Session:
    """The files of a transcript, and the exit status of its last command."""

    def __init__(self):
        self.files = {}
        self.status = commands.GO_ON

    def file_command(self, name, arguments):
        """control_chart FILE COMMAND ..: the text of its one line. The arguments are those after FILE."""
        if name == "" or name.startswith("-") or name in NOT_FILES:
            raise ValueError("%r: the model answers for files only" % name)
        line = " ".join(arguments)
        if "\n" in line:
            raise ValueError("%r: the model answers for one line only" % line)
        kept, answer, self.status, is_error = files.on_file(self.files.get(name), line.encode("utf-8"))
        if kept is not None:
            self.files[name] = kept
        return "%s%s\n" % ("error: %s: " % name if is_error else "", answer.decode("ascii"))

    def input_commands(self, text):
        """control_chart with this text on standard input: the text of all answers. No file is read or changed."""
        steps = commands.steps_of(text.encode("utf-8"))
        self.status = max((ended for _, ended in steps), default=commands.GO_ON)
        return "".join(answer.decode("ascii") + "\n" for answer, _ in steps if answer is not None)
