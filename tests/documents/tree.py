"""The tree that the documents describe: the documents, the header, the help of the program, the crates, the library."""

import ctypes
import glob
import os
import subprocess

from declared import Crates
from text import Document

# Documents that must be there. Every other file in docs is checked too.
NEEDED = ("README.md", "docs/BENCH.md", "docs/C.md", "docs/CHANGES.md", "docs/CLAIMS.md", "docs/DECISIONS.md",
          "docs/LIBRARY.md", "docs/MUST-FAIL.md", "docs/PERFORMANCE.md", "docs/REFUSALS.md", "docs/RULES.md",
          "tests/model/README.md")

HEADER = "include/control_chart.h"
LIBRARY = "target/lib/libcontrol_chart.so"
HELP = "control_chart help"

# What is given in place of a text that the library does not have.
NO_LIBRARY = "no library; make lib makes it"
NO_FUNCTION = "no such function"
NOT_THERE = (NO_LIBRARY, NO_FUNCTION)


class Faults(list):
    """What is wrong. Each fault has a file, a line or 0, what was found there, and what is expected."""

    def add(self, file, line, found, expected):
        place = "%s:%d" % (file, line) if line else file
        fault = "%s: found %s; expected %s" % (place, found, expected)
        if fault not in self:
            self.append(fault)


class Tree:
    def __init__(self, root, library=None):
        self.root = root
        self.documents = {name: Document(name, self.read(name)) for name in self.names()}
        self.header = self.read(HEADER).split("\n")
        self.crates = Crates(root)
        self.program = os.path.join(root, "bin", "control_chart")
        self.help = self.said_by("help")
        self.version = " ".join(self.said_by("--version"))
        self.library = library or Library(os.path.join(root, LIBRARY))

    def names(self):
        """The names of all documents, also of those that are missing."""
        found = [os.path.relpath(path, self.root) for path in glob.glob(os.path.join(self.root, "docs", "*.md"))]
        return sorted({*NEEDED, *found})

    def has(self, path):
        return os.path.lexists(os.path.join(self.root, path))

    def read(self, path):
        """The text of a file, empty if there is no file."""
        try:
            with open(os.path.join(self.root, path), encoding="utf-8", errors="replace", newline="") as file:
                return file.read()
        except FileNotFoundError:
            return ""

    def said_by(self, argument):
        """The lines that the program prints, none if it cannot be run."""
        try:
            done = subprocess.run([self.program, argument], stdin=subprocess.DEVNULL, stdout=subprocess.PIPE,
                                  stderr=subprocess.DEVNULL, timeout=20)
        except (OSError, subprocess.SubprocessError):
            return []
        return done.stdout.decode("utf-8", "replace").rstrip("\n").split("\n") if done.returncode == 0 else []


class Library:
    """The texts of the shared object, by its own functions."""

    ROOM = 256

    def __init__(self, path):
        self.path = path
        self.loaded = None

    def text(self, function, *number):
        """The text that a function gives, or one that says why there is none."""
        try:
            self.loaded = self.loaded or ctypes.CDLL(self.path)
            call = getattr(self.loaded, function)
        except OSError:
            return NO_LIBRARY
        except AttributeError:
            return NO_FUNCTION
        call.restype = ctypes.c_uint16
        call.argtypes = [ctypes.c_uint32 for _ in number] + [ctypes.c_char_p, ctypes.c_size_t]
        buffer = ctypes.create_string_buffer(self.ROOM)
        answer = call(*number, buffer, self.ROOM)
        return buffer.value.decode("utf-8", "replace") if answer == 0 else "refused %d" % answer
