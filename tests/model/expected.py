"""Writes every expected file of the repository from the model, or compares the files there with those of the model.

python3 tests/model/expected.py             writes them
python3 tests/model/expected.py --check     writes nothing, names each file that differs, and then ends with 1
"""

import os
import sys

import make_calls
import make_cases
import make_day
import make_vectors

MAKERS = (make_vectors, make_cases, make_calls, make_day)
ROOT = os.path.join(os.path.dirname(os.path.abspath(__file__)), "..", "..")

# How many bytes of a long line are shown, and how many of them before the first that differs.
SHOWN = 100
BEFORE = 40


def made():
    """All files, by their paths from the root of the repository."""
    files = {}
    for maker in MAKERS:
        files.update(maker.files())
    return files


def write(files, root):
    """Writes all files."""
    for path, data in files.items():
        place = os.path.join(root, path)
        os.makedirs(os.path.dirname(place), exist_ok=True)
        with open(place, "wb") as file:
            file.write(data)
    print("%d files written: %s" % (len(files), " ".join(files)))


def standing(root, path):
    """The bytes of a file as it stands, or None."""
    try:
        with open(os.path.join(root, path), "rb") as file:
            return file.read()
    except FileNotFoundError:
        return None


def lines_of(data):
    """Lines with their line feeds, so that a missing line feed is a difference too."""
    parts = data.split(b"\n")
    return [part + b"\n" for part in parts[:-1]] + ([parts[-1]] if parts[-1] else [])


def part_of(lines, number, column):
    """A line as text, cut if it is long; the number counts from 0."""
    if number >= len(lines):
        return "the end of the file"
    line = lines[number]
    start = max(0, column - BEFORE) if len(line) > SHOWN else 0
    end = start + SHOWN
    return "%s%s%s" % (".. " if start else "", repr(line[start:end])[1:], " .." if end < len(line) else "")


def difference(wanted, found):
    """The first line that differs: its number from 1 on, what is expected, what is found. None if there is none."""
    if wanted == found:
        return None
    wanted, found = lines_of(wanted), lines_of(found)
    number = 0
    while number < min(len(wanted), len(found)) and wanted[number] == found[number]:
        number += 1
    column = 0
    if number < min(len(wanted), len(found)):
        column = len(os.path.commonprefix((wanted[number], found[number])))
    return number + 1, part_of(wanted, number, column), part_of(found, number, column)


def check(files, root):
    """Compares all files with those in the repository: 0 if they are the same, else 1."""
    wrong = 0
    for path, data in files.items():
        found = standing(root, path)
        if found is None:
            print("%s is missing" % path)
        elif found != data:
            print("%s differs at line %d\n  expected %s\n  found    %s" % (path, *difference(data, found)))
        wrong += found != data
    if wrong:
        print("%d of %d files are not as the model makes them" % (wrong, len(files)))
        return 1
    print("%d files are as the model makes them" % len(files))
    return 0


def main(arguments):
    if arguments not in ([], ["--check"]):
        print("usage: python3 tests/model/expected.py [--check]", file=sys.stderr)
        return 2
    if arguments:
        return check(made(), ROOT)
    write(made(), ROOT)
    return 0


if __name__ == "__main__":
    sys.exit(main(sys.argv[1:]))
