"""The figures of documents 01 and 02 and of their readings, on the model and in the files that are made from it.

python3 test_model.py

The numbers here are written by hand from the two documents, their readings and the descriptions of the commands and of
charts in files, so that a wrong model fails here.
"""

import io
import os
import re
import tempfile
import random
from contextlib import redirect_stderr, redirect_stdout
from fractions import Fraction
from functools import lru_cache
from unittest import mock

import choices
import expected
import make_day
import make_vectors
import model
from commands import answers_of, command_of, lines_of, status, status_of, step, steps_of
from files import cases as file_cases, may_change, on_file
from model import Chart
from transcript import Session

A = (9900,) * 7 + (10100,) * 7 + (10000,)
B = (1000,) * 14
C = (10000,) * 7 + (10001,) * 8
J = (296,) * 7 + (304,) * 7 + (300,)
K = (900,) * 7 + (1100,) * 7 + (1000,)
R = (-1100,) * 7 + (-900,) * 7 + (-1000,)
TEN = (0,) * 10 + (1, 12, 144, 1728, 20000)
Y = (200,) * 7 + (400,) * 7 + (300,)
Z = (1000,) * 15

# Document 01, figures from the course: all cases with their commands and answers. {A}, {B} and {C} stand for words.
# Document 02, Q-1: the seven posts from 10010 to 10070 end in 4. Document 02, Q-3: 65 and 63 give 312, the spike 0, 1,
# 32 gives -312, and 200005 over 100000 gives 20000. Document 02, Q-4: 1000 fourteen times and 2000 no longer build, and
# the post of 1001 is told of a chart that was read.
FIGURES = """\
# duplicate X1 1, X2 2
word 1 1 2 0 = word 6667
# duplicate X1 65, X2 63
word 1 65 63 0 = word 312
# spike SSR 0, SR 1, SA 32
word 3 0 1 32 = word -312
# spike SSR 200004, SR 0, SA 100000
word 3 200004 0 100000 = word 20000
# spike SSR 200005, SR 0, SA 100000
word 3 200005 0 100000 = word 20000
# A, kind 2
build 2 {A} = built rounds 1 removed 0
show = chart kind 2 status 0 verdict 0 base 15 {A} series 0
# A, lines
build 2 {A} = built rounds 1 removed 0
lines = lines 10000.00000000 9800.00000000 10200.00000000 9700.00000000 10300.00000000
# A, posts 10300
build 2 {A} = built rounds 1 removed 0
post 2 10300 10000 0 = word 10300 verdict 0
show = chart kind 2 status 0 verdict 0 base 15 {A} series 1 10300
# A, posts 10301
build 2 {A} = built rounds 1 removed 0
post 2 10301 10000 0 = word 10301 verdict 1
show = chart kind 2 status 1 verdict 1 base 15 {A} series 1 10301
# A, posts 10250 10210
build 2 {A} = built rounds 1 removed 0
post 2 10250 10000 0 = word 10250 verdict 0
post 2 10210 10000 0 = word 10210 verdict 2
show = chart kind 2 status 1 verdict 2 base 15 {A} series 2 10250 10210
# A, posts 10250 9790
build 2 {A} = built rounds 1 removed 0
post 2 10250 10000 0 = word 10250 verdict 0
post 2 9790 10000 0 = word 9790 verdict 0
show = chart kind 2 status 0 verdict 0 base 15 {A} series 2 10250 9790
# A, posts 9950 up to 10010 by tens
build 2 {A} = built rounds 1 removed 0
post 2 9950 10000 0 = word 9950 verdict 0
post 2 9960 10000 0 = word 9960 verdict 0
post 2 9970 10000 0 = word 9970 verdict 0
post 2 9980 10000 0 = word 9980 verdict 0
post 2 9990 10000 0 = word 9990 verdict 0
post 2 10000 10000 0 = word 10000 verdict 0
post 2 10010 10000 0 = word 10010 verdict 3
show = chart kind 2 status 1 verdict 3 base 15 {A} series 7 9950 9960 9970 9980 9990 10000 10010
# A after 9950 up to 10010: 9995
read {UP} = read
reanalyse 2 9995 10000 0 = word 9995 passed
show = chart kind 2 status 0 verdict 0 base 15 {A} series 7 9950 9960 9970 9980 9990 10000 9995
# A, posts 10010 up to 10070 by tens
build 2 {A} = built rounds 1 removed 0
post 2 10010 10000 0 = word 10010 verdict 0
post 2 10020 10000 0 = word 10020 verdict 0
post 2 10030 10000 0 = word 10030 verdict 0
post 2 10040 10000 0 = word 10040 verdict 0
post 2 10050 10000 0 = word 10050 verdict 0
post 2 10060 10000 0 = word 10060 verdict 0
post 2 10070 10000 0 = word 10070 verdict 4
show = chart kind 2 status 2 verdict 4 base 15 {A} series 7 10010 10020 10030 10040 10050 10060 10070
# C, lines
build 2 {C} = built rounds 1 removed 0
lines = lines 10000.53125000 9999.50390625 10001.56250000 9998.98437500 10002.08203125
# 1000 fourteen times and 2000, kind 1
build 1 {B} 2000 = refused 16
# 1000 fifteen times and 2000, kind 1
build 1 {B} 1000 2000 = built rounds 2 removed 1
show = chart kind 1 status 0 verdict 0 base 15 {B} 1000 series 0
# 1000 fourteen times, kind 1, lines (from store)
read {FOURTEEN} = read
lines = lines 1000.00000000 1000.00000000 1000.00000000
# 1000 fourteen times, posts 1001 (from store)
read {FOURTEEN} = read
post 1 21001 18999 0 = word 1001 verdict 1
show = chart kind 1 status 1 verdict 1 base 14 {B} series 1 1001
# 4135 seven times and 10000 eight times, 48 bytes lent (kind 2)
build 2 4135 4135 4135 4135 4135 4135 4135 10000 10000 10000 10000 10000 10000 10000 10000 = built rounds 1 removed 0
write = bytes 48 080001000200000000002000020027102710271027102710271027101027102710271027102710271027102702000300
"""

# The stored form of A after 9950 up to 10010 with status 1 and verdict 3: head, base, series.
UP = ("08000100020001000300"
      "20000200" + "ac26" * 7 + "7427" * 7 + "1027"
      "10000300" + "de26" "e826" "f226" "fc26" "0627" "1027" "1a27")

# Document 02, Q-4: the stored form of a chart of kind 1 with 1000 fourteen times: e8 03 is 1000.
FOURTEEN = "08000100010000000000" "1e000200" + "e803" * 14 + "02000300"

# The stored form of a fresh A, and what follows its base when 10301 was posted: 3d 28.
A_FORM = bytes.fromhex("08000100020000000000" "20000200" + "ac26" * 7 + "7427" * 7 + "1027" "02000300")
A_OUT = bytes.fromhex("08000100020001000100" "20000200" + "ac26" * 7 + "7427" * 7 + "1027" "04000300" "3d28")

# What follows the head in the stored form of A after 10010 up to 10070: 1a 27 is 10010, 56 27 is 10070.
ABOVE_AFTER_HEAD = bytes.fromhex("20000200" + "ac26" * 7 + "7427" * 7 + "1027"
                                 "10000300" "1a27" "2427" "2e27" "3827" "4227" "4c27" "5627")

# The command language: each kind of answer with its exit status.
STATUSES = {
    0: ("word 6667", "word -312", "built rounds 1 removed 0", "word 10250 verdict 0", "word -1 verdict 0",
        "word 9800 passed", "word -9800 passed", "corrected", "renewed rounds 2 removed 1", "read", "bytes 48 0800",
        "lines 1000.00000000 1000.00000000 1000.00000000",
        "chart kind 0 status 0 verdict 0 base 0 series 0", "chart kind 2 status 1 verdict 4 base 0 series 0"),
    1: ("word 10301 verdict 1", "word -5 verdict 1", "word 10210 verdict 2", "word 0 verdict 3", "word 10150 verdict 4",
        "word 9790 failed", "word -9790 failed"),
    2: ("refused 1", "refused 8", "refused 14", "refused 16"),
    3: ("error: unknown command; control_chart help lists the commands",
        "error: line too long; a line has at most 8191 bytes"),
}

# A chart in a file: what is wrong with the file.
NO_COMMAND = b"missing command; control_chart help lists the commands"
NO_FILE = b"there is no such file; build makes it"
REFUSED_13 = (b"it holds no stored chart (refused 13); check the name, or take the last good copy; to build anew, "
              b"move it away first")
REFUSED_14 = (b"the chart in it is not sound (refused 14); if an older version left it open, close it with that "
              b"version, else take the last good copy; to build anew, move it away first")

# The cases of files: the answers that must be met, by command. Numbers are those of refusals.
MET_IN_FILES = {
    b"word": (b"word", 1, 5, 6, 7, b"missing", b"number", b"extra"),
    b"build": (b"built", 1, 2, 3, 16, b"missing", b"not"),
    b"post": (b"verdict 0", b"verdict 1", b"verdict 2", b"verdict 3", b"verdict 4", 4, 5, 6, 7, 8, 9, b"missing",
              b"not", b"number"),
    b"reanalyse": (b"passed", b"failed", 4, 5, 6, 7, 10, b"missing", b"not"),
    b"correct": (b"corrected", 11, b"extra"),
    b"renew": (b"renewed", 8, 12, 16, b"extra"),
    b"lines": (b"lines", b"extra"),
    b"write": (b"bytes", b"extra"),
    b"read": (b"read", 13, 14, b"not", b"odd", b"extra"),
    b"show": (b"chart", b"extra"),
    b"help": (b"unknown",),
}

# Document 01, numbers for what is declined: the example of each number that a command can answer.
# Document 02, Q-4, has 16.
EXAMPLES = {
    "kind 4 (a word formed alone)": 1,
    "14 words (kind 2, 10000 each)": 2,
    "-1 fifteen times, kind 1": 3,
    "K, post of a spike": 4,
    "duplicate X1 1000000001, X2 0": 5,
    "duplicate X1 0, X2 0": 6,
    "spike SSR 300, SR 0, SA 100": 7,
    "A after 10250 10301, post of X 10000, A 10000": 8,
    "A after that, post of X 10000 (that: 366 words, the last reanalysed)": 9,
    "A, reanalysis of X 10000, A 10000": 10,
    "A, correction": 11,
    "1000 fourteen times, renewal (from store)": 12,
    "A, the first 0 bytes": 13,
    "status 3": 14,
    "1000 fourteen times and 2000, kind 1": 16,
}

# The readings: the last answer of each example in them that a command can express, without that of `show`.
READINGS = {
    1: {"duplicate X1 1, X2 2, third number -5": "word 6667", "check X 1000000001, A 0": "refused 5"},
    2: {"duplicate X1 0, X2 0": "refused 6", "check X 0, A 0": "refused 6", "spike SSR 5, SR 5, SA 0": "refused 6"},
    # Document 02, Q-3, overrules reading 3. Reading 5 of document 02 has its cases.
    4: {"spike SSR 200004, SR 0, SA 100000": "word 20000", "A, post of X 20001, A 10000": "refused 7",
        "A after 10250 10301, reanalysis of X 30000, A 10000": "refused 7"},
    5: {"kind 0 (a word formed alone)": "refused 1", "kind 0, no word": "refused 1", "A, post of kind 0": "refused 4",
        "A, post of kind 4": "refused 4", "A, reanalysis of kind 4": "refused 10",
        "A after 10250 10301, post of kind 4": "refused 8", "A after 10250 10301, reanalysis of kind 0": "refused 4",
        "A after 10250 10301, reanalysis of kind 4": "refused 4"},
    6: {"A after that, posts 10301 (that: 365 words)": "word 10301 verdict 1",
        "A after that, post of kind 4 (that: 366 words, the last 10301)": "refused 8",
        "A after that: 10000 (that: 366 words, the last 10301)": "word 10000 passed",
        "A after that, post of kind 4 (that: 366 words, the last reanalysed)": "refused 9"},
    7: {"-1 fifteen times, kind 2": "built rounds 1 removed 0",
        "-1 fifteen times and a series of -1, kind 2, read": "read"},
    8: {"A, posts 10250 9790": "word 9790 verdict 0", "K, posts 0": "word 0 verdict 0"},
    9: {"1000 fourteen times and 0, kind 1": "built rounds 1 removed 0",
        # Document 02, Q-4: kind 2 leaves 14 words.
        "1000 fourteen times and 0, kind 2": "refused 16",
        "1000 fifteen times and 0, kind 2": "built rounds 2 removed 1", "K, posts 790 790": "word 790 verdict 0",
        "K after 1301: 0": "word 0 passed", "K after 1210 1210: 790": "word 790 passed",
        "1000 fourteen times and 0, chart kind 1": "read", "1000 fourteen times and 0, chart kind 2": "refused 14"},
    10: {"K after 1010 down to 950: 800": "word 800 failed", "K after 1010 down to 950: 961": "word 961 passed",
         "Z, posts 100 up to 700 by hundreds": "word 700 verdict 3", "Z after 100 up to 700: 1000": "word 1000 failed",
         "Z after 100 up to 700: 600": "word 600 failed", "Z after 100 up to 700: 599": "word 599 passed"},
    11: {"10000 and 10001 thirteen times, 10050, 10051, kind 2": "built rounds 2 removed 2"},
    # Document 02, Q-4: ten words stand. With 0 fifteen times, fifteen stand.
    12: {"0 ten times, 1, 12, 144, 1728, 20000, kind 1": "refused 16",
         "0 fifteen times, 1, 12, 144, 1728, 20000, kind 1": "built rounds 6 removed 5"},
    14: {"A, posts 10100 and 9950 up to 10010 by tens": "word 10010 verdict 3",
         "A after 9950 up to 10010: 10010": "word 10010 passed",
         "A after that, posts 10020 (that: 9950 up to 10010, reanalysis 10010)": "word 10020 verdict 3"},
    15: {"A after 9950 up to 10010: 9600": "word 9600 failed", "A after 9950 up to 10010: 10100": "word 10100 failed",
         "A after 9950 up to 10010: 10099": "word 10099 passed",
         "A after that: 9600 (that: 10150 seven times, correction)": "word 9600 failed",
         "A after that: 9700 (that: 10150 seven times, correction)": "word 9700 passed",
         "A after that: 10100 (that: 10150 seven times, correction)": "word 10100 failed",
         "A after that: 10099 (that: 10150 seven times, correction)": "word 10099 passed"},
    # The run of reading 16 is 4 now, by document 02, Q-1. These cross the mean, and are 3.
    16: {"A, posts 9990 and 10110 up to 10160 by tens": "word 10160 verdict 3",
         "A after 9990 and 10110 up to 10160: 10150": "word 10150 failed",
         "A after 9990 and 10110 up to 10160: 10149": "word 10149 passed",
         "A, posts 10010 and 9890 down to 9840 by tens": "word 9840 verdict 3",
         "A after 10010 and 9890 down to 9840: 9850": "word 9850 failed",
         "A after 10010 and 9890 down to 9840: 9851": "word 9851 passed"},
    17: {"A after 10250 10210: 9790": "word 9790 failed", "A after 10250 10210: 9800": "word 9800 passed"},
    18: {"A after 10250 10301: 10250": "word 10250 passed",
         "A with the series 10250 10250, read (the form just written)": "read"},
    19: {"A after 10250 10301 with status 2, correction": "corrected",
         "A after 10150 seven times with status 1: 10000": "word 10000 passed"},
    20: {"A after that, renewal (that: 10290 and 10000 fourteen times)": "renewed rounds 2 removed 1",
         "1000 fourteen times, renewal (from store)": "refused 12",
         "1000 fourteen times after that, renewal (that: 999)": "renewed rounds 1 removed 0"},
    21: {"chart kind 0, the first 49 bytes": "refused 13", "first length 0": "refused 13",
         "first length 1": "refused 13", "first length 9": "refused 13", "first length 65535": "refused 13",
         "head of two numbers": "refused 13", "head of four numbers": "refused 13", "chart kind 0": "refused 14",
         "chart kind 4": "refused 14", "status 256": "refused 14", "chart kind 257": "refused 14",
         "first base word 45535 (-20001 as a word)": "refused 14",
         "K, first base word 65535 (-1 as a word)": "refused 14"},
    22: {"A after 10250 10000, first series word 10301": "refused 14",
         "A, series 10301 10301, status 1, verdict 1": "refused 14"},
    24: {"chart of zeros, lines": "refused 14"},
    25: {"A, write": "bytes 48 0800010002000000000020000200" + "ac26" * 7 + "7427" * 7 + "1027" + "02000300"},
    26: {"N, lines": "lines -0.46875000 -1.49609375 0.56250000 -2.01562500 1.08203125",
         "P, lines": "lines 0.46484375 -0.56250000 1.49609375 -1.08203125 2.01562500"},
    27: {"Q, lines": "lines 2.52343750 0.00000000 5.05078125 -1.26171875 6.31640625"},
    28: {"W, lines": "lines 0.00000000 -40640.03906250 40640.03906250 -60960.05859375 60960.05859375"},
    32: {"A, posts 10301": "word 10301 verdict 1",
         "1000 fourteen times, posts 1001 (from store)": "word 1001 verdict 1",
         "1000 fifteen times and 2000, posts 1001": "word 1001 verdict 1"},
}

# The readings of document 02, in the same way.
READINGS_02 = {
    1: {"A, posts 10110 up to 10150 by tens and 10210 10250": "word 10250 verdict 2",
        "A, posts 9890 down to 9850 by tens and 9790 9750": "word 9750 verdict 2",
        "A, posts 10110 up to 10160 by tens and 10301": "word 10301 verdict 1",
        "A, posts 9890 down to 9840 by tens and 9699": "word 9699 verdict 1",
        "A, posts 10110 up to 10150 by tens and 10210 10301": "word 10301 verdict 1",
        "A, posts 10010 up to 10070 by tens": "word 10070 verdict 4",
        "A, posts 10070 down to 10010 by tens": "word 10010 verdict 4",
        "A, posts 9990 down to 9930 by tens": "word 9930 verdict 4",
        "A, posts 9930 up to 9990 by tens": "word 9990 verdict 4",
        "A, posts 10001 up to 10007": "word 10007 verdict 4",
        "R, posts -990 up to -930 by tens": "word -930 verdict 4",
        "R, posts -930 down to -990 by tens": "word -990 verdict 4",
        "R, posts -1010 down to -1070 by tens": "word -1070 verdict 4",
        "R, posts -1070 up to -1010 by tens": "word -1010 verdict 4",
        "K, posts 1010 up to 1070 by tens": "word 1070 verdict 3",
        "K, posts 1070 down to 1010 by tens": "word 1010 verdict 3",
        "K, posts 990 down to 930 by tens": "word 930 verdict 3",
        "K, posts 930 up to 990 by tens": "word 990 verdict 3",
        "A, posts 10010 up to 10060 by tens": "word 10060 verdict 0",
        "A, posts 10010 10020 10030 10030 10040 10050 10060": "word 10060 verdict 4",
        "A, posts 9990 10020 10010 10030 10040 10050 10060": "word 10060 verdict 0"},
    2: {"A, posts 10110 up to 10170 by tens": "word 10170 verdict 4", "A after 10110 up to 10170: 10159": "refused 10",
        "A after 10110 up to 10170, post of X 10000, A 10000": "refused 8",
        "A after 10110 up to 10170, renewal": "refused 8", "A after 10110 up to 10170, correction": "corrected",
        "A after that: 10160 (that: 10110 up to 10170, correction)": "word 10160 failed",
        "A after that: 10159 (that: 10110 up to 10170, correction)": "word 10159 failed",
        "A after that: 10100 (that: 10110 up to 10170, correction)": "word 10100 failed",
        "A after that: 10099 (that: 10110 up to 10170, correction)": "word 10099 passed",
        "A after that: 10001 (that: 10110 up to 10170, correction)": "word 10001 passed",
        "A after that: 10000 (that: 10110 up to 10170, correction)": "word 10000 passed",
        "A after that: 9999 (that: 10110 up to 10170, correction)": "word 9999 passed",
        "A after that: 9900 (that: 10110 up to 10170, correction)": "word 9900 passed",
        "A after that: 9700 (that: 10110 up to 10170, correction)": "word 9700 passed",
        "A after that: 9699 (that: 10110 up to 10170, correction)": "word 9699 failed",
        "A after that: 10301 (that: 10110 up to 10170, correction)": "word 10301 failed",
        "A after that: 10070 (that: 10010 up to 10070, correction)": "word 10070 passed",
        "A after that, posts 10080 (that: 10010 up to 10070, correction, reanalysis 10070)": "word 10080 verdict 4",
        "A after that: 10000 (that: 10010 up to 10080, correction)": "word 10000 passed",
        "A after that, posts 10090 (that: 10010 up to 10070 and 10000)": "word 10090 verdict 0",
        "A after 10010 up to 10070, closed, posts 10060": "word 10060 verdict 4",
        "A after 10010 up to 10070, closed, posts 10000": "word 10000 verdict 0",
        "A after 10010 up to 10070, closed, posts 9990": "word 9990 verdict 0",
        "A after 9930 up to 9990, closed, posts 10010": "word 10010 verdict 3",
        "A after 9990 and 10010 up to 10060: 10060": "word 10060 passed",
        "A after that, posts 10070 (that: 9990 and 10010 up to 10060, reanalysis 10060)": "word 10070 verdict 4",
        "K after 1010 up to 1070, closed, posts 1080": "word 1080 verdict 3"},
    3: {"A, posts 9950 up to 10010 by tens": "word 10010 verdict 3",
        "A, posts 10050 down to 9990 by tens": "word 9990 verdict 3",
        "A, posts 10000 up to 10060 by tens": "word 10060 verdict 3",
        "A, posts 10060 down to 10000 by tens": "word 10000 verdict 3",
        "A, posts 10000 down to 9940 by tens": "word 9940 verdict 3",
        "A, posts 9940 up to 10000 by tens": "word 10000 verdict 3",
        "A, posts 9990 and 10010 up to 10060 by tens": "word 10060 verdict 3",
        "A, posts 10060 down to 10010 by tens and 9990": "word 9990 verdict 3",
        "A, posts 10010 and 9990 down to 9940 by tens": "word 9940 verdict 3",
        "A, posts 9940 up to 9990 by tens and 10010": "word 10010 verdict 3",
        "R, posts -1050 up to -990 by tens": "word -990 verdict 3"},
    4: {"A, series 10010 up to 10070 by tens, status 0, verdict 0": "read",
        "A, series 10110 up to 10150 by tens and 10210 10250, status 1, verdict 2": "read",
        "A, series 10110 up to 10150 by tens and 10210 10250, status 2, verdict 2": "read"},
    5: {"duplicate X1 65, X2 63": "word 312", "spike SSR 0, SR 1, SA 32": "word -312",
        "check X 1, A 20000": "word 0", "check X 3, A 20000": "word 2", "check X 5, A 20000": "word 2",
        "check X 625, A 20000": "word 312", "check X 627, A 20000": "word 314",
        "spike SSR 1, SR 0, SA 20000": "word 0", "spike SSR 3, SR 0, SA 20000": "word 2",
        "spike SSR 5, SR 0, SA 20000": "word 2", "spike SSR 0, SR 1, SA 20000": "word 0",
        "spike SSR 0, SR 3, SA 20000": "word -2", "spike SSR 0, SR 5, SA 20000": "word -2",
        "spike SSR 0, SR 625, SA 20000": "word -312", "spike SSR 0, SR 627, SA 20000": "word -314",
        "spike SSR 0, SR 1, SA 20001": "word 0", "spike SSR 1, SR 0, SA 20001": "word 0",
        "duplicate X1 40001, X2 39999": "word 0", "duplicate X1 40003, X2 39997": "word 2",
        "duplicate X1 39995, X2 40005": "word 2",
        # Next to 312.5 and to 313.5.
        "check X 31249999, A 1000000000": "word 312", "check X 31250000, A 1000000000": "word 312",
        "check X 31250001, A 1000000000": "word 313", "check X 31349999, A 1000000000": "word 313",
        "check X 31350000, A 1000000000": "word 314", "check X 31350001, A 1000000000": "word 314",
        "duplicate X1 649999999, X2 630000000": "word 312", "duplicate X1 650000000, X2 630000000": "word 312",
        "duplicate X1 650000001, X2 630000000": "word 313",
        "spike SSR 0, SR 31249999, SA 1000000000": "word -312", "spike SSR 0, SR 31250000, SA 1000000000": "word -312",
        "spike SSR 0, SR 31250001, SA 1000000000": "word -313", "spike SSR 0, SR 31349999, SA 1000000000": "word -313",
        "spike SSR 0, SR 31350000, SA 1000000000": "word -314", "spike SSR 0, SR 31350001, SA 1000000000": "word -314",
        # 312.5, 937.5, 1562.5 and 2187.5, from odd and from even readings.
        "check X 1, A 32": "word 312", "check X 2, A 64": "word 312", "check X 3, A 32": "word 938",
        "check X 6, A 64": "word 938", "check X 5, A 32": "word 1562", "check X 7, A 32": "word 2188",
        "duplicate X1 130, X2 126": "word 312", "duplicate X1 67, X2 61": "word 938",
        "duplicate X1 134, X2 122": "word 938", "spike SSR 0, SR 2, SA 64": "word -312",
        "spike SSR 0, SR 3, SA 32": "word -938",
        # Posts and reanalyses are compared with the new words.
        "J, post of X1 65, X2 63": "word 312 verdict 0", "J, post of X1 650000001, X2 630000000": "word 313 verdict 1",
        "L, post of SSR 0, SR 1, SA 32": "word -312 verdict 0",
        "L, post of SSR 0, SR 31250001, SA 1000000000": "word -313 verdict 1",
        "U, post of X 1, A 32": "word 312 verdict 0", "U, post of X 31250001, A 1000000000": "word 313 verdict 1",
        "V, post of X 577, A 20000": "word 288 verdict 1", "U after 309, post of X 617, A 20000": "word 308 verdict 0",
        "V after 292, post of X 585, A 20000": "word 292 verdict 2",
        "U after 297 up to 302, post of X 605, A 20000": "word 302 verdict 0",
        "U after 297 up to 302, post of X 607, A 20000": "word 304 verdict 3",
        "U after 301 six times, post of X 601, A 20000": "word 300 verdict 0",
        "V after 300 six times, post of X 601, A 20000": "word 300 verdict 4",
        "J after 313, reanalysis of X1 65, X2 63": "word 312 passed",
        "J after 313, reanalysis of X1 650000001, X2 630000000": "word 313 failed",
        "L after -313, reanalysis of SSR 0, SR 1, SA 32": "word -312 passed",
        "V after 314, reanalysis of X 577, A 20000": "word 288 failed",
        "U after 309 309, reanalysis of X 617, A 20000": "word 308 passed",
        "V after 310 310, reanalysis of X 585, A 20000": "word 292 failed",
        "U after 299 up to 303 and 305 306, reanalysis of X 609, A 20000": "word 304 passed",
        "V after 298 up to 304, reanalysis of X 609, A 20000": "word 304 passed",
        "V after 306 seven times with status 1, reanalysis of X 609, A 20000": "word 304 passed"},
    6: {"spike SSR 200005, SR 0, SA 100000": "word 20000", "spike SSR 0, SR 200005, SA 100000": "word -20000",
        "spike SSR 200006, SR 0, SA 100000": "refused 7", "spike SSR 0, SR 200006, SA 100000": "refused 7",
        "spike SSR 200015, SR 0, SA 100000": "refused 7", "spike SSR 0, SR 200015, SA 100000": "refused 7",
        "spike SSR 0, SR 199995, SA 100000": "word -20000", "check X 199995, A 100000": "word 20000",
        "check X 200005, A 100000": "word 20000", "check X 200006, A 100000": "refused 7",
        "check X 200015, A 100000": "refused 7", "duplicate X1 79999, X2 1": "word 20000",
        "A, post of X 200005, A 100000": "word 20000 verdict 1", "A, post of X 200006, A 100000": "refused 7",
        "A after 10250 10301, reanalysis of X 200005, A 100000": "word 20000 failed",
        "A after 10250 10301, reanalysis of X 200006, A 100000": "refused 7"},
    7: {"-1 seven times and 0 eight times, kind 3, lines":
            "lines -0.46875000 -1.49609375 0.56250000 -2.01562500 1.08203125",
        "J, lines": "lines 300.00000000 308.00000000 312.00000000",
        "L, lines": "lines -300.00000000 -308.00000000 -292.00000000 -312.00000000 -288.00000000",
        "Y, series 313, read": "read",
        "Y after that, post of X1 65, X2 63 (that: series 313 from store)": "word 312 verdict 0",
        # c8 00 is 200, 90 01 is 400, 2c 01 is 300, 39 01 is 313, 38 01 is 312.
        "Y after that, write (that: 313 from store, post of 312)":
            "bytes 52 0800010001000000000020000200" + "c800" * 7 + "9001" * 7 + "2c01" + "0600030039013801",
        "Y after that, renewal (that: 313 from store, post of 312)": "renewed rounds 1 removed 0",
        "Y after that, lines (that: 313 from store, post of 312, renewal)":
            "lines 315.00000000 497.78515625 589.17578125",
        "-313 fifteen times and a series of -313, kind 3, read": "read",
        "-313 fifteen times after that, post of SSR 0, SR 1, SA 32 (that: series -313 from store)":
            "word -312 verdict 1",
        "-313 fifteen times after that: -313 (that: series -313 from store, post of -312)": "word -313 passed",
        "J, series 313, status 0, verdict 0": "refused 14", "J, series 313, status 1, verdict 1": "read",
        "J, series 313, status 2, verdict 1": "read"},
    # Document 02, Q-4.
    10: {"1000 fourteen times and 2000, kind 1": "refused 16",
         "1000 fifteen times and 2000, kind 1": "built rounds 2 removed 1",
         "1000 sixteen times and 2000, kind 1": "built rounds 2 removed 1",
         "1000 fourteen times and 2000, kind 2": "refused 16", "1000 fourteen times and 2000, kind 3": "refused 16",
         "-1000 fourteen times and -2000, kind 3": "refused 16",
         "-1000 fifteen times and -2000, kind 3": "built rounds 2 removed 1",
         "A, then 1000 fourteen times and 2000, kind 1": "refused 16",
         "chart of A after that, posts 10301 (that: a refused build)": "word 10301 verdict 1",
         "500, 1000 fourteen times and 2000, kind 1": "built rounds 2 removed 1",
         "500, 1000 fourteen times and 2000, kind 2": "refused 16",
         "500, 1000 fifteen times and 2000, kind 2": "built rounds 3 removed 2",
         "32 words with 0 fourteen times, kind 1": "refused 16", "32 words with 0 fourteen times, kind 2": "refused 16",
         "32 words with 0 fourteen times, kind 3": "refused 16",
         "32 words with 0 fifteen times, kind 1": "built rounds 18 removed 17",
         "32 words with 0 fifteen times, kind 2": "built rounds 18 removed 17",
         "32 words with 0 fifteen times, kind 3": "built rounds 18 removed 17",
         "32 words with 0 sixteen times, kind 1": "built rounds 17 removed 16",
         "1000 fourteen times and 2000, kind 4": "refused 1", "1000 thirteen times and 2000, kind 1": "refused 2",
         "1000 fourteen times and 20001, kind 1": "refused 3"},
    11: {"B after 0 posts, renewal": "renewed rounds 1 removed 0",
         "B after 1 post, renewal": "renewed rounds 1 removed 0",
         "B after 2 posts, renewal": "renewed rounds 2 removed 1",
         "B after 3 posts, renewal": "renewed rounds 2 removed 1",
         "wide after 0 and the last 5 of 18 far words, and 0 fourteen times, renewal": "renewed rounds 6 removed 5",
         "wide after 0 and the last 17 of 18 far words, and 0 fourteen times, renewal": "renewed rounds 18 removed 17",
         "wide after 0 and 17 words on both sides, and 0 fourteen times, kind 3, renewal":
             "renewed rounds 18 removed 17",
         "wide after 0 and 18 far words, and 0 fourteen times, renewal": "refused 16",
         "0, 20, -10 and 0 seven times after 0 seven times, kind 2, renewal": "renewed rounds 3 removed 2",
         "0, 20, -10 and 0 seven times after 0 six times, kind 2, renewal": "refused 16",
         "A after that, renewal (that: 10290 and 10000 fourteen times)": "renewed rounds 2 removed 1"},
    12: {"X after 0 posts, renewal": "renewed rounds 1 removed 0", "X after 1 post, renewal": "refused 16",
         "X after 2 posts, renewal": "renewed rounds 1 removed 0", "X after 120 with status 1, renewal": "refused 8",
         "X after 120 with status 2, renewal": "refused 8", "1 and 0 nine times after 4 posts, renewal": "refused 12",
         "1 and 0 nine times after 5 posts, renewal": "refused 16",
         "1 and 0 nine times after 6 posts, renewal": "renewed rounds 1 removed 0",
         "2, 2, 1 and 0 fourteen times, renewal (without posts)": "renewed rounds 1 removed 0",
         "W, renewal (without posts)": "renewed rounds 1 removed 0"},
    13: {**{"1000 %s times from store, kind %d, %s" % (count, kind, told): answer
            for count in ("ten", "eleven", "twelve", "thirteen", "fourteen") for kind in (1, 2, 3)
            for told, answer in (("posts 1001", "word 1001 verdict 1"), ("renewal", "refused 12"))},
         "base of 9 and series of 0": "refused 13", "base of 10 and series of 0": "read",
         "1000 ten times and 1000 five times from store, renewal": "renewed rounds 1 removed 0"},
    14: {"wide after 365 words, posts 0": "word 0 verdict 0",
         "wide after that, renewal (that: 366 words)": "refused 16",
         "wide after that, post of X1 5, X2 5 (that: 366 words, a refused renewal)": "refused 9",
         "Z after that (that: a full series that is not renewed)": "built rounds 1 removed 0"},
}

# Document 02, Q-3 and Q-4: what is shown of a chart after a case, from its series or from its base on.
SHOWN_AFTER = {
    "1000 fifteen times and 0, kind 2": "base 15" + " 1000" * 15 + " series 0",
    "0 fifteen times, 1, 12, 144, 1728, 20000, kind 1": "base 15" + " 0" * 15 + " series 0",
    "1000 sixteen times and 2000, kind 1": "base 16" + " 1000" * 16 + " series 0",
    "A, then 1000 fourteen times and 2000, kind 1": "10100 10000 series 0",
    "500, 1000 fourteen times and 2000, kind 1": "base 15 500" + " 1000" * 14 + " series 0",
    "500, 1000 fifteen times and 2000, kind 2": "base 15" + " 1000" * 15 + " series 0",
    "B after 0 posts, renewal": "base 15 15 0 0 0 6 15 0 0 0 4 0 0 0 0 0 series 0",
    "B after 1 post, renewal": "base 16 15 0 0 0 6 15 0 0 0 4 0 0 0 0 0 0 series 0",
    "B after 2 posts, renewal": "base 15 0 0 0 6 0 0 0 4 0 0 0 0 0 0 0 series 0",
    "B after 3 posts, renewal": "base 15 0 0 6 0 0 0 4 0 0 0 0 0 0 0 0 series 0",
    "X after 0 posts, renewal": "base 15 100 70" + " 0" * 13 + " series 0",
    "X after 1 post, renewal": "base 15 100 70" + " 0" * 13 + " series 1 0",
    "X after 2 posts, renewal": "base 15" + " 0" * 15 + " series 0",
    "2, 2, 1 and 0 fourteen times, renewal (without posts)": "base 17 2 2 1" + " 0" * 14 + " series 0",
    "0, 20, -10 and 0 seven times after 0 six times, kind 2, renewal":
        "base 10 0 20 -10" + " 0" * 7 + " series 6" + " 0" * 6,
    "A after that, renewal (that: 10290 and 10000 fourteen times)": "base 15" + " 10000" * 15 + " series 0",
    "1000 ten times from store, kind 3, posts 1001": "base 10" + " 1000" * 10 + " series 1 1001",
    "1000 thirteen times from store, kind 2, renewal": "base 13" + " 1000" * 13 + " series 0",
    "wide after that, renewal (that: 366 words)": "3 5 1 2" + " 0" * 14,
    # Document 02, Q-3.
    "Y, series 313, read": "300 series 1 313",
    "Y after that, post of X1 65, X2 63 (that: series 313 from store)": "300 series 2 313 312",
    "Y after that, renewal (that: 313 from store, post of 312)": "300 313 312 series 0",
    "-313 fifteen times and a series of -313, kind 3, read": "-313 series 1 -313",
    "-313 fifteen times after that, post of SSR 0, SR 1, SA 32 (that: series -313 from store)":
        "-313 series 2 -313 -312",
    "J, series 313, status 1, verdict 1": "300 series 1 313",
    "J after 313, reanalysis of X1 65, X2 63": "300 series 1 312",
    "J after 313, reanalysis of X1 650000001, X2 630000000": "300 series 1 313",
}

# Reading 4 of document 02: series stored open under 3 and under 4, with either status, and the verdict that is read.
STORED_OPEN = {"A, series 10010 up to 10070 by tens": 4, "A, series 9990 down to 9930 by tens": 4,
               "R, series -1010 down to -1070 by tens": 4, "A, series 9950 up to 10010 by tens": 3,
               "A, series 10050 down to 9990 by tens": 3, "A, series 10000 up to 10060 by tens": 3,
               "K, series 1010 up to 1070 by tens": 3, "K, series 990 down to 930 by tens": 3,
               "A, series 10110 up to 10150 by tens and 10210 10250": 2}

# A trend on one side, call by call: the answers after the seventh post.
ONE_SIDE_CALLS = ["word 10170 verdict 4", "refused 10", "corrected", "word 10159 failed", "corrected",
                  "word 10099 passed", "refused 10", "word 10170 verdict 4"]

# The made commands: outcomes that must occur beside the four verdicts, as the table of outcomes names them.
TREND_ACROSS = "post kind {kind} verdict 3 on a trend, {way} across the mean"
TREND_ON_ONE_SIDE = "post kind {kind} verdict {verdict} on a trend, {way} {side} the mean"
REANALYSED_TREND = ("failed", "passed by both", "passed by being near alone", "passed by turning back alone")

# A day with a chart in a file: the readings after post and reanalyse are found, made up, and 0. `# 1` is the status.
DAY_IN_FILE = """\
build 2 9900 9900 9900 9900 9900 9900 9900 10100 10100 10100 10100 10100 10100 10100 10000
built rounds 1 removed 0
# 0
lines
lines 10000.00000000 9800.00000000 10200.00000000 9700.00000000 10300.00000000
# 0
post 2 1002 1000 0
word 10020 verdict 0
# 0
post 2 1031 1000 0
word 10310 verdict 1
# 1
post 2 1001 1000 0
refused 8
# 2
reanalyse 2 1030 1000 0
word 10300 passed
# 0
show
chart kind 2 status 0 verdict 0 base 15 {A} series 2 10020 10300
# 0
"""

# The same day, as the examples print it with the texts.
DAY = b"""\
word 9900
built rounds 1 removed 0
lines 10000.00000000 9800.00000000 10200.00000000 9700.00000000 10300.00000000
word 10020 verdict 0: none
word 10310 verdict 1: beyond a control limit
refused 8: a reanalysis or a correction is due
word 10300 passed
kept 52 bytes
"""

# The form at the end of the day: 24 27 is 10020, 3c 28 is 10300.
DAY_FORM = bytes.fromhex("0800 0100 0200 0000 0000 2000 0200" + "ac26" * 7 + "7427" * 7 + "1027"
                         + "0600 0300 2427 3c28")

PASSED = 0


def same(found, wanted):
    """One check."""
    global PASSED
    assert found == wanted, (found, wanted)
    PASSED += 1


def refusal(function, *given):
    """The number with which a call is refused, or 0."""
    try:
        function(*given)
    except model.Refused as refused:
        return refused.number
    return 0


def reading(kind, word):
    """Three numbers that give the word."""
    if kind == 1:
        return 20000 + word, 20000 - word, 0
    if kind == 2:
        return word, 10000, 0
    return max(word, 0), max(-word, 0), 10000


def posted(kind, base, words):
    """The chart after building and posting, and the verdicts."""
    chart = model.build(kind, base)[0]
    verdicts = []
    for word in words:
        chart, formed, verdict = model.post(chart, kind, *reading(kind, word))
        assert formed == word
        verdicts.append(verdict)
    return chart, verdicts


def outcome(chart, word):
    """Whether a reanalysis with the word passes."""
    return model.reanalyse(chart, chart.kind, *reading(chart.kind, word))[2]


def test_words():
    """Figures from the course; readings 1, 2 and 4; document 02, Q-3, and readings 5 and 6 of document 02."""
    same(model.word_alone(1, 1, 2, 0), 6667)
    same(model.word_alone(1, 65, 63, 0), 312)
    same(model.word_alone(3, 0, 1, 32), -312)
    same(model.word_alone(3, 200004, 0, 100000), 20000)
    same(model.word_alone(3, 200005, 0, 100000), 20000)
    same(model.word_alone(3, 0, 200005, 100000), -20000)
    same(model.word_alone(2, 200005, 100000, 0), 20000)
    for a, b in ((200006, 0), (0, 200006), (200015, 0), (0, 200015)):
        same(refusal(model.word_alone, 3, a, b, 100000), 7)
    same(refusal(model.word_alone, 2, 200006, 100000, 0), 7)
    same(refusal(model.word_alone, 3, 300, 0, 100), 7)
    same(model.word_alone(1, 1, 2, -5), 6667)
    same(refusal(model.word_alone, 2, 1000000001, 0, 0), 5)
    same(refusal(model.word_alone, 1, 0, 0, 0), 6)
    same(refusal(model.word_alone, 2, 0, 0, 0), 6)
    same(refusal(model.word_alone, 3, 5, 5, 0), 6)
    same(model.word_alone(2, 1, 20000, 0), 0)
    same(model.word_alone(3, 0, 1, 20000), 0)
    same(model.word_alone(3, 1, 0, 20000), 0)
    same(model.word_alone(3, 0, 3, 20000), -2)
    same(model.word_alone(3, 3, 0, 20000), 2)
    same(model.word_alone(2, 625, 20000, 0), 312)
    same(model.word_alone(2, 627, 20000, 0), 314)
    same(answers_of(b"word 3 0 1 20000"), [b"word 0"])
    same(model.word_alone(3, 0, 1, 20001), 0)
    same(model.word_alone(3, 0, 1, 19999), -1)
    same(refusal(model.word_alone, 4, 0, 0, 0), 1)
    same(refusal(model.word_alone, 1, 1000000001, 0, 0), 5)
    same(model.word_alone(1, 1000000000, 0, 0), 20000)


def away_from_zero(numerator, divisor):
    """Document 01 before document 02, Q-3: the nearest whole number, halves away from zero."""
    size = (2 * abs(numerator) + divisor) // (2 * divisor)
    return -size if numerator < 0 else size


def quotients():
    """Numerators and divisors: a grid on both sides of 0, and halves of every size with what is next to them."""
    yield from ((numerator, divisor) for divisor in range(1, 65) for numerator in range(-200, 201))
    for divisor in (2, 32, 100000, 40000, 999999998, 1000000000, 2000000000):
        for twice in (1, 3, 5, 623, 625, 627, 19999, 20001, 39997, 39999, 40001, 40003, 40005):
            for off in (-1, 0, 1):
                for way in (1, -1):
                    yield way * (twice * divisor // 2 + off), divisor


def exactly(kind, a, b, c):
    """From readings to words: the quotient as a fraction."""
    if kind == 1:
        return Fraction(20000 * abs(a - b), a + b)
    return Fraction(10000 * a, b) if kind == 2 else Fraction(10000 * (a - b), c)


def test_rounding():
    """Document 02, Q-3: the rounding against that of Python's fractions, and against the rule before."""
    pairs = list(quotients())
    # Python rounds a fraction to the nearest whole number, and a half to the even one.
    same([pair for pair in pairs if model.nearest(*pair) != round(Fraction(*pair))], [])
    same([pair for pair in pairs if model.nearest(-pair[0], pair[1]) != -model.nearest(*pair)], [])
    # The rule before differs just where a half has an even whole part. There its word is one farther from 0.
    differing = 0
    for numerator, divisor in pairs:
        way = (numerator > 0) - (numerator < 0)
        whole = abs(numerator) // divisor
        halfway = abs(Fraction(numerator, divisor)) - whole == Fraction(1, 2)
        wanted = way if halfway and whole % 2 == 0 else 0
        differing += wanted != 0
        assert away_from_zero(numerator, divisor) - model.nearest(numerator, divisor) == wanted, (numerator, divisor)
    same(differing > 300, True)
    # Words of readings: formed in the same way, and the range tested after rounding.
    for kind, readings in ((1, [(a, b, 0) for a in range(66) for b in range(1, 130)]),
                           (2, [(a, b, 0) for a in range(130) for b in range(1, 66)]),
                           (3, [(a, b, c) for a in range(12) for b in range(12) for c in (1, 3, 32, 64, 4000, 20000)])):
        for a, b, c in readings:
            wanted = round(exactly(kind, a, b, c))
            assert choices.formed(kind, (a, b, c)) == (wanted if abs(wanted) <= 20000 else None), (kind, a, b, c)
        same(sum(choices.half(kind, *numbers) is not None for numbers in readings) > 20, True)


def test_chosen_readings():
    """The readings that are chosen for a word give it. For an even word many are halves; for an odd word none is."""
    rng = random.Random(3)
    for kind, least in ((1, 0), (2, 0), (3, -20000)):
        met = {0: 0, 1: 0}
        for word in (least, least + 1, 20000, 19999, *(rng.randint(least, 20000) for _ in range(400))):
            numbers = choices.rounded(rng, kind, word)
            assert choices.formed(kind, numbers) == word, (kind, word, numbers)
            met[word % 2] += choices.half(kind, *numbers) is not None
        same((kind, met[0] > 40, met[1]), (kind, True, 0))
        for twice in (1, 3, 625, 39999) + ((-1, -3, -625, -40001) if kind == 3 else ()):
            for times in (1, 2, 7):
                numbers = choices.halfway(kind, twice, times)
                same((numbers, exactly(kind, *numbers)), (numbers, Fraction(twice, 2)))
                same((numbers, max(numbers[:1 if kind == 2 else 2]) % 2), (numbers, times % 2))


def test_stored_words():
    """Document 02, Q-3: words in stored charts are left alone; reading 7 of document 02."""
    # 65 and 63 gave 313 before, and give 312 now.
    stored = Chart(1, Y, (313, 313), 0, 0)
    form = model.stored_form(stored)
    same(model.read(form), stored)
    same(model.write(model.read(form)), form)
    chart, word, verdict = model.post(model.read(form), 1, 65, 63, 0)
    same((word, verdict, chart.series, chart.base), (312, 0, (313, 313, 312), Y))
    same(model.renew(chart)[0].base, Y[3:] + (313, 313, 312))
    # The limit of J is 312. The verdict that 313 opened stays open until the new word passes.
    opened = Chart(1, J, (313,), 1, 1)
    same(model.read(model.stored_form(opened)), opened)
    same(refusal(model.post, opened, 1, 65, 63, 0), 8)
    same(model.reanalyse(opened, 1, 65, 63, 0), (Chart(1, J, (312,), 0, 0), 312, True))
    same(model.post(model.build(1, J)[0], 1, 65, 63, 0)[1:], (312, 0))
    # A base of old words: the limits are those of the words in it.
    for kind, words, readings, wanted in ((3, (-313,) * 15, (0, 1, 32), (-312, 1)),
                                          (2, (313,) * 15, (1, 32, 0), (312, 1)),
                                          (1, (313,) * 15, (65, 63, 0), (312, 0))):
        chart = model.read(model.stored_form(Chart(kind, words, (), 0, 0)))
        same(model.lines(chart)[0], 256 * words[0])
        same(model.post(chart, kind, *readings)[1:], wanted)


def test_building():
    """Base, limits, rejection; readings 7, 9, 11, 12, 20; document 02, Q-4."""
    same(model.build(2, A), (Chart(2, A, (), 0, 0), 1, 0))
    same(model.build(2, (-1,) * 15)[1:], (1, 0))
    low = (1000,) * 14 + (0,)
    same(model.build(1, low)[1:], (1, 0))
    same(refusal(model.build, 2, low), 16)
    same(model.reject(2, low), (B, 2, 1))
    two = (10000,) * 13 + (10001,) * 13 + (10050, 10051)
    same(model.build(2, two)[1:], (2, 2))
    # The figures about rejection: ten words stand, and fourteen.
    same(model.reject(1, TEN), ((0,) * 10, 6, 5))
    same(model.reject(1, B + (2000,)), (B, 2, 1))
    for base in ((0,) * 10, B):
        chart = model.read(model.stored_form(Chart(1, base, (), 0, 0)))
        same(refusal(model.renew, chart), 12)
    same(model.post(chart, 1, *reading(1, 1001))[1:], (1001, 1))
    same(refusal(model.build, 4, A), 1)
    same(refusal(model.build, 2, A[:14]), 2)
    same(refusal(model.build, 1, (-1,) * 15), 3)
    same(model.figures(()), (0, 0, 0))
    same(model.beyond(2, (0, 0, 0), 3, 5), False)
    same(model.beyond(2, model.figures((4,)), 3, 5), False)


def test_sums_given():
    """Document 02, Q-5: the sums that each round is given; readings 8 and 9 of document 02."""
    same(model.sums_given(1, TEN), [(15, 21885, 403006865), (14, 1885, 3006865), (13, 157, 20881), (12, 13, 145),
                                    (11, 1, 1), (10, 0, 0)])
    # T rises where a word below 0 is removed.
    below = tuple(-word for word in TEN)
    same(model.sums_given(3, below), [(15, -21885, 403006865), (14, -1885, 3006865), (13, -157, 20881), (12, -13, 145),
                                      (11, -1, 1), (10, 0, 0)])
    same(model.reject(3, below), ((0,) * 10, 6, 5))
    # Two words go in one round: on both sides, and the same word twice.
    same(model.sums_given(2, (100,) * 30 + (-20000, 20000)), [(32, 3000, 800300000), (30, 3000, 300000)])
    same(model.sums_given(3, (-7, *(0,) * 29, -7)), [(31, -14, 98), (29, 0, 0)])
    # One round, which removes nothing. Kind 1 has no lower limit, so it keeps a word far below the mean.
    same(model.sums_given(2, A), [(15, 150000, 1500140000)])
    same(model.sums_given(1, B + (0,)), [(15, 14000, 14000000)])
    same(model.sums_given(2, B + (0,)), [(15, 14000, 14000000), (14, 14000, 14000000)])
    # Reading 9: a round marks by the sums that it is given, and hands on those less the words that it removes. These
    # are not the sums of A. With the first, S is 0. With the second, the mean is 9000 and S is 0.
    same(model.one_round(2, A, (15, 150000, 1500000000)), ((10000,), (1, 10000, 99860000)))
    same(model.one_round(1, A, (15, 135000, 1215000000)), ((), (0, -15000, -285140000)))
    same(model.one_round(2, A, (15, 150000, 2000000000)), (A, (15, 150000, 2000000000)))
    # Only the sums of the first round are made from words.
    with mock.patch.object(model, "sums_of", wraps=model.sums_of) as summed:
        same(model.reject(1, TEN), ((0,) * 10, 6, 5))
        same([call.args for call in summed.call_args_list], [(TEN,)])


def rounds_afresh(kind, words):
    """Base, limits, rejection, by fractions: the words standing in each round, and n, T and Q of them summed afresh."""
    rounds = []
    while True:
        n, total, squares = len(words), sum(words), sum(word ** 2 for word in words)
        rounds.append((tuple(words), (n, total, squares)))
        mean, s_squared = Fraction(total, n), Fraction(n * squares - total ** 2, n * (n - 1))
        left = [word for word in words if (word - mean) ** 2 <= 9 * s_squared or kind == 1 and word < mean]
        if len(left) == n:
            return rounds
        words = left


def base_for_rounds(rng, kind):
    """15 to 32 words of a kind: as for the commands, or close together with powers or with a few words far away."""
    size = rng.choice((15, 16, 32, rng.randint(15, 32)))
    shape = rng.randrange(3)
    if shape == 0:
        return tuple(choices.random_base(rng, kind, size))
    centre, spread = rng.choice((0, 0, 100, 10000)), rng.choice((0, 1, 5))
    if shape == 1:
        ratio = rng.choice((2, 3, 4, 12))
        far = [ratio ** power for power in range(1, rng.randint(2, 15))]
    else:
        far = [rng.choice((50, 1000, 20000))] * rng.randint(1, 2)
        far += [rng.randint(0, 20000) for _ in range(rng.randrange(3))]
    sides = (1,) if kind == 1 else rng.choice(((1,), (-1,), (1, -1)))
    words = [centre + rng.choice(sides) * away for away in far if away <= 20000][:size - 10]
    words += [centre + rng.randint(-spread, spread) for _ in range(size - len(words))]
    rng.shuffle(words)
    return tuple(min(20000, max(0 if kind == 1 else -20000, word)) for word in words)


def test_sums_afresh():
    """Document 02, Q-5: each round is given n, T and Q of the words then standing. Words and counts are as before."""
    rng = random.Random(5)
    for kind in (1, 2, 3):
        sizes, rounds_met, at_once, ways = set(), set(), set(), set()
        for _ in range(1200):
            words = base_for_rounds(rng, kind)
            assert 15 <= len(words) <= 32 and all(model.in_range(kind, word) for word in words), (kind, words)
            rounds = rounds_afresh(kind, words)
            base, sums = rounds[-1][0], [of_round for _, of_round in rounds]
            assert model.sums_given(kind, words) == sums, (kind, words)
            assert model.reject(kind, words) == (base, len(rounds), len(words) - len(base)), (kind, words)
            sizes.add(len(words))
            rounds_met.add(len(rounds))
            for (n, total, _), (n_after, total_after, _) in zip(sums, sums[1:]):
                at_once.add(n - n_after)
                ways.add("falls" if total_after < total else "rises" if total_after > total else "stays")
        # All sizes, one round to ten, one word removed in a round and two, T in every way that the kind allows.
        same((kind, sizes), (kind, set(range(15, 33))))
        same((kind, rounds_met >= set(range(1, 11)), at_once >= {1, 2}), (kind, True, True))
        same((kind, ways), (kind, {"falls"} if kind == 1 else {"falls", "rises", "stays"}))


@lru_cache(maxsize=None)
def afresh(kind, words):
    """Rejection by fractions: the words that stand, the rounds, the number removed."""
    rounds = rounds_afresh(kind, words)
    base = rounds[-1][0]
    return base, len(rounds), len(words) - len(base)


def renewed_afresh(chart):
    """Document 02, Q-4, from its words: the answer of a renewal, or its number.

    Rejection is done on every tail. Then the least length of which 15 stand is looked for among all of them.
    """
    if chart.status != 0:
        return 8
    words = list(chart.base) + list(chart.series)
    if len(words) < 15:
        return 12
    of_tails = {}
    while len(words) >= 15:
        if len(words) <= 32:
            of_tails[len(words)] = afresh(chart.kind, tuple(words))
        words.pop(0)
    will_do = {count for count, (base, _, _) in of_tails.items() if len(base) > 14}
    if not will_do:
        return 16
    base, rounds, removed = of_tails[min(will_do)]
    return Chart(chart.kind, base, (), 0, 0), rounds, removed


def renewed(chart):
    """The answer of a renewal by the model, or its number."""
    try:
        return model.renew(chart)
    except model.Refused as refused:
        return refused.number


# Wrong renewals. Each takes how many words the tail of each length leaves. It gives the length of the tail that it
# would use, or None.
WRONG_TAILS = {
    "downward": lambda left: max((count for count in left if left[count] >= 15), default=None),
    "only the last 15": lambda left: 15 if left[15] >= 15 else None,
    "up to 31": lambda left: min((count for count in left if left[count] >= 15 and count < 32), default=None),
    "14 are enough": lambda left: min((count for count in left if left[count] >= 14), default=None),
    "16 must stand": lambda left: min((count for count in left if left[count] >= 16), default=None),
    "none may go": lambda left: min((count for count in left if left[count] == count), default=None),
    "the most words": lambda left: max(left, key=left.get) if max(left.values()) >= 15 else None,
    "all or 32": lambda left: max(left) if left[max(left)] >= 15 else None,
    "by halving": lambda left: halved(left, min(left), max(left)),
    "one more for each that went": lambda left: stepped(left, min(left)),
}


def halved(left, low, high):
    """A search by halving, as if every tail longer than one that will do did too."""
    if left[high] < 15:
        return None
    while low < high:
        middle = (low + high) // 2
        low, high = (low, middle) if left[middle] >= 15 else (middle + 1, high)
    return low


def stepped(left, count):
    """A search in which a tail that lacks some words is made longer by as many, as if the others stayed."""
    while count in left and left[count] < 15:
        count += 15 - left[count]
    return count if count in left else None


def chart_for_tails(rng, kind):
    """A free sound chart: words close together, and some far away, at any place of the base and of the series."""
    while True:
        zero = rng.choice((0.6, 0.7, 0.8, 0.9))
        sizes = rng.sample((2, 3, 5, 8, 15, 30, 70, 150, 400), rng.randint(1, 5))
        total = rng.choice((15, 16, 17, 18, 20, 24, 31, 32, 33, rng.randint(10, 80)))
        centre = rng.choice((500, 500, 10000)) * (-1 if kind == 3 and rng.random() < 0.5 else 1)
        sides = (1,) if kind == 1 else rng.choice(((1,), (-1,), (1, -1)))
        words = [centre + (0 if rng.random() < zero else rng.choice(sides) * rng.choice(sizes)) for _ in range(total)]
        if rng.random() < 0.4:
            # About 14 words at the end are close together. The words before them are the farther the earlier they are.
            away = [rng.randint(1, 2)]
            for _ in range(rng.randint(0, 19)):
                away.append(int(away[-1] * rng.uniform(1.2, 1.5)) + rng.randint(1, 2))
            words = words[:rng.randint(0, 12)] + [centre] * rng.randint(0, 3)
            words += [centre + rng.choice(sides) * size for size in reversed(away) if size <= 450]
            words += [centre] * rng.choice((14, 14, 14, 13, 15))
        total = len(words)
        size = rng.randint(10, min(32, total))
        chart = Chart(kind, tuple(words[:size]), tuple(words[size:]), 0, 0)
        if model.sound(chart):
            return chart


def test_fifteen_standing():
    """Document 02, Q-4: figures, the order of the refusals; readings 10 to 14 of document 02."""
    # Reading 10.
    same(refusal(model.build, 1, B + (2000,)), 16)
    same(model.build(1, B + (1000, 2000)), (Chart(1, Z, (), 0, 0), 2, 1))
    same(model.build(1, B + (1000, 1000, 2000)), (Chart(1, Z + (1000,), (), 0, 0), 2, 1))
    same(model.build(1, (500,) + B + (2000,)), (Chart(1, (500,) + B, (), 0, 0), 2, 1))
    same(refusal(model.build, 2, (500,) + B + (2000,)), 16)
    for words, number in (((1000,) * 13 + (2000,), 2), (B + (20001,), 3), (B + (-1,), 3), (B + (2000,), 16)):
        same((words, refusal(model.build, 1, words), refusal(model.build, 4, words)), (words, number, 1))
    # Reading 11.
    chart = Chart(1, (15, 0, 0, 0, 6, 15, 0, 0, 0, 4, 0, 0, 0, 0, 0), (0, 0, 0), 0, 0)
    words = chart.base + chart.series
    same([len(model.reject(1, words[-count:])[0]) for count in (15, 16, 17, 18)], [14, 15, 14, 18])
    same([tail == words[-len(tail):] for tail in model.tails(words)], [True] * 4)
    same(model.renew(chart), (Chart(1, (0, 0, 6, 0, 0, 0, 4, 0, 0, 0, 0, 0, 0, 0, 0), (), 0, 0), 2, 1))
    # Reading 12.
    chart = Chart(1, (100, 70) + (0,) * 13, (), 0, 0)
    same(model.renew(chart), (chart, 1, 0))
    same(refusal(model.renew, chart._replace(series=(0,))), 16)
    same(model.renew(chart._replace(series=(0, 0))), (Chart(1, (0,) * 15, (), 0, 0), 1, 0))
    for status in (1, 2):
        opened = Chart(1, (100, 70) + (0,) * 13, (120,), status, 1)
        same((model.sound(opened), refusal(model.renew, opened)), (True, 8))
    same(refusal(model.renew, Chart(1, (100, 70) + (0,) * 13, (120,), 0, 0)), 14)
    small = Chart(1, (1,) + (0,) * 9, (), 0, 0)
    same([refusal(model.renew, small._replace(series=(0,) * posts)) for posts in range(8)], [12] * 5 + [16, 0, 0])
    # Reading 13: 9 words are no stored form, 10 to 32 are.
    for size in range(9, 34):
        form = model.stored_form(Chart(1, (1000,) * size, (), 0, 0))
        same((size, refusal(model.read, form)), (size, 0 if 10 <= size <= 32 else 13))
        if 10 <= size <= 32:
            chart = model.read(form)
            same((size, refusal(model.renew, chart)), (size, 12 if size < 15 else 0))
            same((size, model.post(chart, 1, *reading(1, 1001))[1:]), (size, (1001, 1)))
            same((size, model.write(chart)), (size, form))
    # Reading 14: the words before the last 32 do not count. The word before them would make fifteen stand.
    far = (147, 125, 105, 88, 73, 60, 49, 39, 31, 24, 19, 14, 10, 7, 5, 3, 2, 1)
    full = Chart(1, (20000,) * 16 + (0,) * 16, (0,) * 334 + far + (0,) * 14, 0, 0)
    same((len(full.series), model.sound(full), refusal(model.renew, full)), (366, True, 16))
    same(refusal(model.post, full, 1, 5, 5, 0), 9)
    same(len(model.reject(1, full.series[-33:])[0]), 15)
    fuller = full._replace(series=full.series[19:] + (0,) * 19)
    same(model.renew(fuller), (Chart(1, (0,) * 15, (), 0, 0), 1, 0))
    shorter = full._replace(series=full.series[:334] + (0,) + far[1:] + (0,) * 14)
    same(model.renew(shorter), (Chart(1, (0,) * 15, (), 0, 0), 18, 17))


def test_tails_afresh():
    """Document 02, Q-4: the tail used is the shortest of which 15 stand. Wrong renewals differ on many charts."""
    rng = random.Random(7)
    for kind in (1, 2, 3):
        used, wrong, sorts = set(), dict.fromkeys(WRONG_TAILS, 0), set()
        charts = [chart_for_tails(rng, kind) for _ in range(300)]
        charts += [chart for _, words in make_vectors.shorter_better(kind) for chart in make_vectors.splits(kind, words)]
        # The tail of 32 words is used.
        series = (500,) + choices.far_words(kind, (500,) * 14, (1,), 17) + (500,) * 14
        charts.append(Chart(kind, (0, 20000) * 16, series, 0, 0))
        for chart in charts:
            words = chart.base + chart.series
            wanted = renewed_afresh(chart)
            assert renewed(chart) == wanted, chart
            if wanted == 12:
                sorts.add(12)
                continue
            left = choices.tail_lengths(kind, words)
            assert left == {count: len(afresh(kind, words[-count:])[0]) for count in left}, chart
            assert sorted(left) == list(range(15, min(32, len(words)) + 1)), chart
            length = choices.tail_used(kind, words)
            used.add(length)
            for name, search in WRONG_TAILS.items():
                wrong[name] += search(left) != length
            if wanted == 16:
                sorts.add(16)
                # A base of 15 words or more is a tail that stands, if there are no posts.
                assert length is None and (chart.series or len(chart.base) < 15), chart
                continue
            base = wanted[0].base
            assert len(base) >= 15 and model.sound(wanted[0]) and wanted[2] == length - len(base), chart
            assert base == tuple(word for word in words[-length:] if word in base), chart
            sorts.add("longer will not do" if any(left[count] < 15 for count in left if count > length) else "will do")
            # The next renewal without posts is accepted too.
            assert len(model.renew(wanted[0])[0].base) >= 15, chart
        same((kind, [count for count in (None, *range(15, 21), 32) if count not in used]), (kind, []))
        same((kind, sorts), (kind, {12, 16, "longer will not do", "will do"}))
        same((kind, [name for name, times in wrong.items() if times == 0]), (kind, []))
    # An open verdict comes first, whatever the tails are.
    for words in ((0,) * 10, (1,) + (0,) * 14, (0,) * 32):
        for status in (1, 2):
            chart = Chart(2, words[:10], words[10:] + (400,), status, 1)
            same((model.sound(chart), renewed(chart), renewed_afresh(chart)), (True, 8, 8))


def test_far_words():
    """Document 02, Q-4: far words that are all removed. So every tail from 15 words to 32 is used, and none will do."""
    far = (147, 125, 105, 88, 73, 60, 49, 39, 31, 24, 19, 14, 10, 7, 5, 3, 2, 1)
    both = (-136, 116, -98, 82, -68, 56, -46, 37, -29, 23, -18, 13, -10, 7, -5, 3, -2, 1)
    same(choices.far_words(1, (0,) * 14, (1,), 18), far)
    same(choices.far_words(2, (0,) * 14, (1, -1), 18), both)
    for kind, words in ((1, far), (2, both), (3, both), (3, tuple(-word for word in far))):
        base = (-20000, 20000) * 16 if kind != 1 else (0, 20000) * 16
        for count in range(18):
            series = (0,) + words[18 - count:] + (0,) * 14
            wanted = Chart(kind, (0,) * 15, (), 0, 0), count + 1, count
            same((kind, count, model.renew(Chart(kind, base, series, 0, 0))), (kind, count, wanted))
            if count in (0, 1, 5, 17):
                same((kind, count, renewed_afresh(Chart(kind, base, series, 0, 0))), (kind, count, wanted))
        for front in ((), (0,), (0,) * 300):
            chart = Chart(kind, base, front + words + (0,) * 14, 0, 0)
            same((kind, renewed(chart), renewed_afresh(chart)), (kind, 16, 16))
    # The words in which a longer tail does worse: for each kind one that will do stands before one that will not.
    for kind in (1, 2, 3):
        patterns = {pattern: words for pattern, words in make_vectors.shorter_better(kind)}
        same((kind, len(patterns) > 9, all("10" in pattern for pattern in patterns)), (kind, True, True))
        for pattern, words in patterns.items():
            will_do = [len(afresh(kind, words[-count:])[0]) >= 15 for count in range(15, 15 + len(pattern))]
            same((words, "".join("1" if good else "0" for good in will_do)), (words, pattern))
            for chart in make_vectors.splits(kind, words):
                same(renewed(chart), renewed_afresh(chart))
                same(choices.tail_used(kind, words), 15 + pattern.index("1"))


def test_verdicts():
    """Figures from the course; readings 9, 14; document 02, Q-1."""
    same(posted(2, A, [10300])[1], [0])
    same(posted(2, A, [10301])[1], [1])
    same(posted(2, A, [9700])[1], [0])
    same(posted(2, A, [9699])[1], [1])
    same(posted(2, A, [10250, 10210])[1], [0, 2])
    same(posted(2, A, [10250, 9790])[1], [0, 0])
    same(posted(2, A, [10200, 10210])[1], [0, 0])
    same(posted(2, A, range(9950, 10011, 10))[1], [0] * 6 + [3])
    same(posted(2, A, range(10010, 10071, 10))[1], [0] * 6 + [4])
    same(posted(2, A, [10150] * 7)[1], [0] * 6 + [4])
    same(posted(1, K, [790, 790])[1], [0, 0])
    same(posted(1, Z, range(100, 701, 100))[1], [0] * 6 + [3])
    chart = posted(2, A, range(9950, 10011, 10))[0]
    again = model.reanalyse(chart, 2, *reading(2, 10010))[0]
    same(again.status, 0)
    same(model.post(again, 2, *reading(2, 10020))[2], 3)


def test_one_side_before_trend():
    """Document 02, Q-1: the order 1, 2, 4, 3; readings 1 to 4 of document 02."""
    for kind, base, words, wanted in (
            (2, A, (10110, 10120, 10130, 10140, 10150, 10210, 10250), 2),
            (2, A, (10110, 10120, 10130, 10140, 10150, 10160, 10301), 1),
            (2, A, range(10070, 10009, -10), 4), (2, A, range(9990, 9929, -10), 4), (2, A, range(9930, 9991, 10), 4),
            (3, R, range(-990, -929, 10), 4), (3, R, range(-1010, -1071, -10), 4), (3, R, range(-1070, -1009, 10), 4),
            (1, K, range(1010, 1071, 10), 3), (1, K, range(990, 929, -10), 3), (1, K, range(930, 991, 10), 3),
            (2, A, range(10000, 10061, 10), 3), (2, A, range(9940, 10001, 10), 3), (2, A, range(9950, 10011, 10), 3),
            (2, A, (9990, *range(10010, 10061, 10)), 3), (2, A, (*range(9940, 9991, 10), 10010), 3),
            (3, R, range(-1050, -989, 10), 3),
            # The means are 10000 and a fifteenth, and -1000 less a fifteenth.
            (2, A[:14] + (10001,), range(9994, 10001), 4), (2, A[:14] + (10001,), range(10000, 10007), 3),
            (3, R[:14] + (-1001,), range(-1000, -993), 4), (3, R[:14] + (-1001,), range(-1001, -994), 3)):
        chart, verdicts = posted(kind, base, words)
        same((words, verdicts), (words, [0] * 6 + [wanted]))
        # 4 asks for a correction first, the others for a reanalysis.
        same((words, chart.status), (words, 2 if wanted == 4 else 1))
        # The stored chart is sound with the verdict that was answered and with no other.
        for status in (1, 2):
            for verdict in (1, 2, 3, 4):
                stored = model.stored_form(chart._replace(status=status, verdict=verdict))
                same((words, refusal(model.read, stored)), (words, 0 if verdict == wanted else 14))
    chart = posted(2, A, range(10110, 10171, 10))[0]
    same(refusal(model.reanalyse, chart, 2, *reading(2, 10159)), 10)
    same(refusal(model.post, chart, 2, *reading(2, 10000)), 8)
    chart = model.correct(chart)
    for word, wanted in ((10159, False), (10100, False), (10099, True), (10000, True), (9700, True), (9699, False)):
        same((word, outcome(chart, word)), (word, wanted))
    # 10070 passes, since it is near the mean. The next word is judged with the six before it.
    chart = model.reanalyse(model.correct(posted(2, A, range(10010, 10071, 10))[0]), 2, *reading(2, 10070))[0]
    same([model.post(chart, 2, *reading(2, word))[2] for word in (10080, 10060, 10000, 9990, 10301)], [4, 4, 0, 0, 1])


def test_reanalysis():
    """The machine; readings 10, 15 to 19."""
    chart = posted(2, A, range(9950, 10011, 10))[0]
    for word, wanted in ((9995, True), (9600, False), (10100, False), (10099, True), (10010, True)):
        same(outcome(chart, word), wanted)
    chart = model.correct(posted(2, A, [10150] * 7)[0])
    same((chart.status, chart.verdict), (1, 4))
    same(model.sound(chart), True)
    for word, wanted in ((9600, False), (9700, True), (10100, False), (10099, True)):
        same(outcome(chart, word), wanted)
    # These two cross the mean, and are 3.
    chart = posted(2, A, (9990, *range(10110, 10161, 10)))[0]
    same(chart.verdict, 3)
    for word, wanted in ((10150, False), (10149, True), (10100, True), (9700, True), (9699, False), (10301, False)):
        same(outcome(chart, word), wanted)
    chart = posted(2, A, (10010, *range(9890, 9839, -10)))[0]
    same(chart.verdict, 3)
    for word, wanted in ((9850, False), (9851, True), (9900, True), (10300, True), (10301, False), (9699, False)):
        same(outcome(chart, word), wanted)
    chart = posted(2, A, [10250, 10210])[0]
    same(outcome(chart, 9790), False)
    same(outcome(chart, 9800), True)
    chart = posted(1, K, range(1010, 949, -10))[0]
    same(chart.verdict, 3)
    same(outcome(chart, 800), False)
    same(outcome(chart, 961), True)
    chart = posted(1, Z, range(100, 701, 100))[0]
    for word, wanted in ((1000, False), (600, False), (599, True)):
        same(outcome(chart, word), wanted)
    chart = posted(2, A, [10250, 10301])[0]
    chart = model.reanalyse(chart, 2, *reading(2, 10250))[0]
    same((chart.series, chart.status, chart.verdict), ((10250, 10250), 0, 0))
    same(model.sound(chart), True)
    failed = model.reanalyse(posted(2, A, [10301])[0], 2, *reading(2, 10301))[0]
    same((failed.status, failed.verdict, model.sound(failed)), (2, 1, True))


def test_order():
    """Numbers for what is declined: the order; readings 4, 5, 6."""
    fresh = model.build(2, A)[0]
    open_chart = posted(2, A, [10301])[0]
    same(refusal(model.post, fresh, 0, -1, 0, 0), 4)
    same(refusal(model.post, open_chart, 4, -1, 0, 0), 8)
    same(refusal(model.reanalyse, fresh, 4, 0, 0, 0), 10)
    same(refusal(model.reanalyse, open_chart, 4, 0, 0, 0), 4)
    same(refusal(model.reanalyse, open_chart, 2, 3, 1, 0), 7)
    same(refusal(model.correct, fresh), 11)
    same(refusal(model.renew, open_chart), 8)
    # Document 02, Q-4: 8, 12, 16 in renewal; 1, 2, 3, 16 in building.
    same(refusal(model.renew, Chart(1, (0,) * 10, (1,), 1, 1)), 8)
    same(refusal(model.renew, Chart(1, (1,) + (0,) * 9, (0,) * 4, 0, 0)), 12)
    same(refusal(model.renew, Chart(1, (1,) + (0,) * 9, (0,) * 5, 0, 0)), 16)
    same(refusal(model.renew, Chart(1, (1,) + (0,) * 9, (0,) * 4 + (9,), 0, 0)), 14)
    same([refusal(model.build, kind, words) for kind, words in (
        (4, B + (20001,)), (1, B[1:] + (20001,)), (1, B + (20001,)), (1, B + (2000,)))], [1, 2, 3, 16])
    full = Chart(2, A, (9990, 10010) * 183, 0, 0)
    same(model.sound(full), True)
    same(refusal(model.post, full, 3, 1, 1, 1), 9)
    last = full._replace(series=full.series[:-1])
    chart, _, verdict = model.post(last, 2, *reading(2, 10301))
    same((verdict, len(chart.series)), (1, 366))
    same(refusal(model.post, chart, 2, 1, 1, 1), 8)
    same(model.reanalyse(chart, 2, *reading(2, 10300))[2], True)
    for call in (model.correct, model.renew, model.lines, model.write):
        same(refusal(call, model.ZEROS), 14)
    same(refusal(model.post, model.ZEROS, 0, 0, 0, 0), 14)


def test_stored_form():
    """Stored form; readings 18, 19, 21, 22, 25."""
    fresh = model.build(2, A)[0]
    data = model.write(fresh)
    same(len(data), 48)
    same(model.read(data), fresh)
    same(model.two_bytes(4135).hex(), "2710")
    same(model.two_bytes(10000).hex(), "1027")
    same(refusal(model.read, b""), 13)
    zero_kind = model.stored_form(fresh._replace(kind=0))
    same(refusal(model.read, zero_kind), 14)
    same(refusal(model.read, zero_kind + b"\0"), 13)
    for length in (0, 1, 6, 9, 10, 65535):
        same(refusal(model.read, model.two_bytes(length) + data[2:]), 13)
    for kind, status in ((4, 0), (2, 256), (2, 3), (257, 0)):
        same(refusal(model.read, model.stored_form(fresh._replace(kind=kind, status=status))), 14)
    low = model.stored_form(fresh._replace(base=(-20001,) + A[1:]))
    same(refusal(model.read, low), 14)
    negative = model.stored_form(Chart(1, (-1,) + K[1:], (), 0, 0))
    same(refusal(model.read, negative), 14)
    same(refusal(model.read, model.stored_form(fresh._replace(series=(10301, 10000)))), 14)
    same(model.sound(Chart(2, A, (10301,), 2, 1)), True)
    same(model.sound(Chart(2, A, (10301,), 1, 2)), False)
    for size, wanted in ((9, 13), (10, 0), (32, 0), (33, 13)):
        same(refusal(model.read, model.stored_form(Chart(2, (5,) * size, (), 0, 0))), wanted)
    full = (9990, 10010) * 183
    same(refusal(model.read, model.stored_form(Chart(2, A, full, 0, 0))), 0)
    same(refusal(model.read, model.stored_form(Chart(2, A, full + (9990,), 0, 0))), 13)


def test_lines():
    """Lines for the plotter; readings 26 to 28; reading 7 of document 02; and each k against its definition."""
    same(sorted(model.lines(model.build(2, A)[0])), [256 * x for x in (9700, 9800, 10000, 10200, 10300)])
    same(sorted(model.lines(model.build(2, C)[0])), [2559740, 2559873, 2560136, 2560400, 2560533])
    # Reading 7 of document 02: the mean is about -119.47 / 256, and its line is -120 / 256.
    same(model.lines(model.build(3, (-1,) * 7 + (0,) * 8)[0])[0], -120)
    same(model.lines(model.build(3, (1,) * 7 + (0,) * 8)[0])[0], 119)
    zero = (0, 0, 1) + (2,) * 6 + (3,) * 5 + (4,) * 5
    same(model.lines(model.build(3, zero)[0])[1], 0)
    wide = (-20000,) * 16 + (20000,) * 16
    same(model.lines(model.build(3, wide)[0])[4], 15605775)
    same(len(model.lines(model.build(1, K)[0])), 3)
    for words in (A, C, K, zero, wide, (-1,) * 7 + (0,) * 8, (3, 8, -7) * 5):
        n, total, v = model.figures(words)
        for times in (2, 3):
            for upper in (True, False):
                k = model.limit_line((n, total, v), times, upper)
                step = 1 if upper else -1
                same([within(n, total, v, times, at, step) for at in (k, k + step)], [True, False])


def within(n, total, v, times, k, step):
    """Whether k / 256 is not outside the limit on the side of step, by squares."""
    away = step * (k * n - 256 * total)
    return away <= 0 or away * away * (n - 1) <= 65536 * times * times * n * v


def test_commands():
    """The command language."""
    same(lines_of(b"a\r\nb\rc\n\r\r\n\nd\r"), [b"a", b"b\rc", b"\r", b"", b"d"])
    same(lines_of(b"a\n"), [b"a"])
    same(lines_of(b""), [])
    errors = {
        b"post 2 x": b"error: not a number",
        b"post 2 5": b"error: missing number",
        b"correct x": b"error: extra number",
        b"read 0g 5": b"error: not a hex digit",
        b"read 00 5": b"error: extra number",
        b"read 000": b"error: odd number of hex digits",
        b"build": b"error: missing number",
        b"build 2": b"refused 2",
        b"read": b"refused 13",
        b"word 1 1 2 9223372036854775808": b"error: number too large",
        b"word 1 1 2 -9223372036854775808": b"word 6667",
        b"word 65537 1 2 3": b"refused 1",
        b"#" * 8192: b"error: line too long",
        b"Word 1 1 2 3": b"error: unknown command",
    }
    for line, wanted in errors.items():
        same(answers_of(line)[0].split(b";")[0], wanted)
    same(answers_of(b" \t \n# x\n\t#\n" + b"#" * 8191 + b"\r\n"), [None] * 4)
    same(answers_of(b"show")[0], b"chart kind 0 status 0 verdict 0 base 0 series 0")
    words = " ".join(map(str, C)).encode()
    same(answers_of(b"build 2 " + words + b"\nlines\n")[1],
         b"lines 10000.53125000 9999.50390625 10001.56250000 9998.98437500 10002.08203125")
    same(answers_of(b"build 3" + b" -1" * 7 + b" 0" * 8 + b"\nlines")[1].split()[1], b"-0.46875000")


def test_ends_and_fronts():
    """The command language: a carriage return at the end of a line, a mark at its front."""
    # At the end of input too, and only one.
    for data, wanted in ((b"a\r", [b"a"]), (b"a\r\r", [b"a\r"]), (b"\r", [b""]), (b"a\n\r", [b"a", b""]),
                         (b"a\r\n", [b"a"]), (b"a\r ", [b"a\r "]), (b"\ra", [b"\ra"])):
        same(lines_of(data), wanted)
    # A mark at the front of any line, and only one.
    mark = bytes((0xef, 0xbb, 0xbf))
    for data, wanted in ((mark + b"a", [b"a"]), (mark + b"a\n" + mark + b"b\r\n" + mark, [b"a", b"b", b""]),
                         (mark + mark + b"a", [mark + b"a"]), (mark + b"\n", [b""]), (mark + b"\r\n", [b""]),
                         (mark + b"\r", [b""]), (b"a" + mark, [b"a" + mark]), (b" " + mark, [b" " + mark]),
                         (b"\r" + mark + b"\n", [b"\r" + mark]), (mark[:2] + b"\n", [mark[:2]]),
                         (mark[:2], [mark[:2]]), (mark + b"\r\r\n", [b"\r"]), (mark[:2] + b"\r", [mark[:2]])):
        same(lines_of(data), wanted)
    unknown = b"error: unknown command; control_chart help lists the commands"
    for data, wanted in ((b"show\r", b"chart kind 0 status 0 verdict 0 base 0 series 0"), (b"show\r\r", unknown),
                         (mark + b"show", b"chart kind 0 status 0 verdict 0 base 0 series 0"),
                         (mark + mark + b"show", unknown), (mark + mark, unknown), (b" " + mark + b"show", unknown),
                         (mark[:2], unknown), (mark, None), (mark + b"# x", None), (mark + b" \r", None),
                         (mark + mark + b"# x", unknown)):
        same(answers_of(data), [wanted])
    # Neither counts for the 8191 bytes.
    for front in (b"", mark):
        for end in (b"", b"\r", b"\n", b"\r\n"):
            same(answers_of(front + b"#" * 8191 + end), [None])
            same(answers_of(front + b"#" * 8192 + end), [b"error: line too long; a line has at most 8191 bytes"])
    same(answers_of(mark + mark + b"x" * 8188), [unknown])
    same(answers_of(mark + mark + b"x" * 8189), [b"error: line too long; a line has at most 8191 bytes"])


def test_statuses():
    """The command language: the exit status of each answer, and of an input."""
    for number, answers in STATUSES.items():
        for answer in answers:
            same((answer, status(answer.encode())), (answer, number))
    build = b"build 2 " + " ".join(map(str, A)).encode() + b"\n"
    out, passing, failing = (b"post 2 10301 10000 0\n", b"reanalyse 2 1 1 0\n", b"reanalyse 2 10301 10000 0\n")
    for data, wanted in ((b"", 0), (b"# x\n\n", 0), (build, 0), (build + b"post 2 1 1 0", 0), (build + out, 1),
                         (build + out + passing, 1), (build + out + failing, 1), (build + out + b"show\nwrite", 1),
                         (b"correct", 2), (build + out + b"renew\nshow", 2), (b"x", 3), (b"x\ncorrect\n" + build, 3),
                         (b"#" * 8192, 3), (b"show\r", 0)):
        same(status_of(data), wanted)
    # An open chart by itself holds nothing: only a post and a reanalysis do.
    chart = posted(2, A, [10301])[0]
    for line, wanted in ((b"show", 0), (b"lines", 0), (b"word 2 1 1 0", 0), (b"reanalyse 2 1 1 0", 0),
                         (b"reanalyse 2 3 1 0", 2), (b"reanalyse 2 10301 10000 0", 1), (b"", 0)):
        same(step(chart, line)[2], wanted)
    # The status by what happened and the status by the answer agree, on every line of the made files.
    steps = steps_of(made_files()["crates/control_chart/stdin"])
    same([pair for pair in steps if pair[1] != (status(pair[0]) if pair[0] is not None else 0)], [])
    same({ended for _, ended in steps}, {0, 1, 2, 3})


def test_files():
    """A chart in a file: the bytes kept, the text, the exit status, and where the text goes."""
    build = b"build 2 " + " ".join(map(str, A)).encode()
    built, posted_out = b"built rounds 1 removed 0", b"word 10301 verdict 1"
    status_2 = A_OUT[:6] + b"\2" + A_OUT[7:]
    unsound = A_FORM[:6] + b"\3" + A_FORM[7:]
    for held in (None, b"", A_FORM, unsound):
        for line in (b"", b" \t", b"#", b" # build"):
            same(on_file(held, line), (None, NO_COMMAND, 3, True))
    for line in (b"show", b"post 2 1 1 0", b"read " + A_FORM.hex().encode(), b"word 1 1 2 0", b"x", b"Build", b"post x",
                 b"read"):
        same(on_file(None, line), (None, NO_FILE, 3, True))
    for line, wanted in ((build, (A_FORM, built, 0, False)), (b"\t" + build + b" ", (A_FORM, built, 0, False)),
                         (b"build 4", (None, b"refused 1", 2, False)), (b"build 2 5", (None, b"refused 2", 2, False)),
                         (b"build 1" + b" -1" * 15, (None, b"refused 3", 2, False))):
        same(on_file(None, line), wanted)
    same(on_file(None, b"build")[2:], (3, False))
    same(on_file(None, b"build 2 x")[0], None)
    same(on_file(None, b"build 2 x")[1].split(b";")[0], b"error: not a number")
    for line in (b"show", build, b"read " + A_FORM.hex().encode(), b"x", b"word 1 1 2 0", b"post 2 x"):
        for held in (b"", A_FORM[:47], A_FORM + b"\0", A_FORM.hex().encode(), unsound + b"\0"):
            same(on_file(held, line), (None, REFUSED_13, 3, True))
        same(on_file(unsound, line), (None, REFUSED_14, 3, True))
    for held, line, wanted in (
            (A_FORM, b"post 2 10301 10000 0", (A_OUT, posted_out, 1, False)),
            (A_OUT, b"post 2 10301 10000 0", (None, b"refused 8", 2, False)),
            (A_OUT, b"reanalyse 2 10301 10000 0", (status_2, b"word 10301 failed", 1, False)),
            (status_2, b"correct", (A_OUT, b"corrected", 0, False)),
            (status_2, b"reanalyse 2 1 1 0", (None, b"refused 10", 2, False)),
            (A_FORM, b"word 1 1 2 0", (None, b"word 6667", 0, False)),
            (A_FORM, b"write", (None, b"bytes 48 " + A_FORM.hex().encode(), 0, False)),
            (A_FORM, b"read " + A_OUT.hex().encode(), (A_OUT, b"read", 0, False)),
            (A_OUT, b"read " + A_OUT.hex().encode(), (None, b"read", 0, False)),
            (A_OUT, b"read", (None, b"refused 13", 2, False)),
            (A_OUT, b"read " + unsound.hex().encode(), (None, b"refused 14", 2, False)),
            (A_OUT, build, (A_FORM, built, 0, False)), (A_FORM, build, (None, built, 0, False)),
            # The last fifteen words are those of the base.
            (A_FORM, b"renew", (None, b"renewed rounds 1 removed 0", 0, False)),
            (A_FORM, b"correct", (None, b"refused 11", 2, False)),
            (A_FORM, b"x", (None, b"error: unknown command; control_chart help lists the commands", 3, False))):
        same(on_file(held, line), wanted)
    # Document 02, Q-1: a file with a chart open under 3 where 4 applies is of no use; open under 4 it is.
    for head, wanted in (("01000300", (None, REFUSED_14, 3, True)), ("02000300", (None, REFUSED_14, 3, True)),
                         ("01000400", (None, b"refused 11", 2, False))):
        held = bytes.fromhex("080001000200" + head) + ABOVE_AFTER_HEAD
        same(on_file(held, b"correct"), wanted)
    held = bytes.fromhex("08000100020002000400") + ABOVE_AFTER_HEAD
    same(on_file(held, b"correct"), (held[:6] + b"\1" + held[7:], b"corrected", 0, False))
    # Document 02, Q-3: a file with 313 from 65 and 63 (39 01) keeps it; a new post of them adds 312 (38 01).
    base = "20000200" + "c800" * 7 + "9001" * 7 + "2c01"
    held = bytes.fromhex("08000100010000000000" + base + "040003003901")
    same(on_file(held, b"show")[1].split()[-3:], [b"series", b"1", b"313"])
    same(on_file(held, b"post 1 65 63 0"), (bytes.fromhex("08000100010000000000" + base + "0600030039013801"),
                                            b"word 312 verdict 0", 0, False))
    # Document 02, Q-4: a build that is refused with 16 makes no file, and changes none. A renewal changes none either.
    high = b"build 1" + b" 1000" * 14 + b" 2000"
    for held in (None, A_FORM, A_OUT, bytes.fromhex(FOURTEEN)):
        same(on_file(held, high), (None, b"refused 16", 2, False))
    made = bytes.fromhex("08000100010000000000" "20000200" + "e803" * 15 + "02000300")
    same(on_file(None, high.replace(b" 2000", b" 1000 2000")), (made, b"built rounds 2 removed 1", 0, False))
    # 64 00 is 100, and 46 00 is 70.
    held = bytes.fromhex("08000100010000000000" "20000200" "64004600" + "0000" * 13 + "040003000000")
    same(on_file(held, b"renew"), (None, b"refused 16", 2, False))
    more, answer, ended, _ = on_file(held, b"post 1 5 5 0")
    same((more, answer, ended), (held[:44] + bytes.fromhex("0600030000000000"), b"word 0 verdict 0", 0))
    same(on_file(more, b"renew"), (bytes.fromhex("08000100010000000000" "20000200" + "0000" * 15 + "02000300"),
                                   b"renewed rounds 1 removed 0", 0, False))
    # A file with a base of 14 words is posted to; e9 03 is 1001.
    held = bytes.fromhex(FOURTEEN)
    same(on_file(held, b"renew"), (None, b"refused 12", 2, False))
    same(on_file(held, b"post 1 21001 18999 0"),
         (bytes.fromhex("08000100010001000100") + held[10:42] + bytes.fromhex("04000300e903"), b"word 1001 verdict 1",
          1, False))
    passed = on_file(A_OUT, b"reanalyse 2 10300 10000 0")
    same((passed[0].hex(), passed[1:]), (A_FORM[:44].hex() + "040003003c28", (b"word 10300 passed", 0, False)))
    for line, wanted in ((build, True), (b" post", True), (b"reanalyse x", True), (b"correct", True), (b"renew", True),
                         (b"read", True), (b"word 1 1 2 0", False), (b"lines", False), (b"write", False),
                         (b"show", False), (b"x", False), (b"", False), (b"# post", False), (b"posts", False)):
        same((line, may_change(line)), (line, wanted))


def told_in_file(command, answer):
    """An answer as MET_IN_FILES has it."""
    fields = answer.split()
    if fields[0] == b"refused":
        return int(fields[1])
    if fields[0] == b"error:":
        return fields[1]
    return b" ".join(fields[2:]) if command in (b"post", b"reanalyse") else fields[0]


def test_file_cases():
    """The cases of files: their number, what they meet, and what holds for each."""
    pairs = file_cases()
    same(pairs == file_cases(), True)
    same((400 <= len(pairs) <= 700, len(set(pairs))), (True, len(pairs)))
    same([line for _, line in pairs if b"\0" in line or b"\n" in line or len(line) > 8191], [])
    met, errors = set(), set()
    for held, line in pairs:
        kept, answer, ended, is_error = on_file(held, line)
        command = command_of(line)
        if is_error:
            errors.add((held is None, answer))
            assert (kept, ended) == (None, 3), (held, line)
        else:
            met.add((command, told_in_file(command, answer)))
            assert ended == status(answer), (held, line)
        if kept is not None:
            assert may_change(line) and kept != held and refusal(model.read, kept) == 0, (held, line)
    same(errors, {(True, NO_COMMAND), (False, NO_COMMAND), (True, NO_FILE), (False, REFUSED_13), (False, REFUSED_14)})
    for command, answers in MET_IN_FILES.items():
        same((command, {told for name, told in met if name == command}), (command, set(answers)))
    # The cuts of one form: every one of its front parts, and every one with a byte left out.
    held_all = {held for held, _ in pairs}
    same([size for size in range(50) if A_OUT[:size] not in held_all], [])
    same([place for place in range(50) if A_OUT[:place] + A_OUT[place + 1:] not in held_all], [])
    same([form in held_all for form in (b"", A_OUT + b"\0", A_OUT.hex().encode())], [True] * 3)
    # Document 02, Q-4: files with each base from 10 words to 14, and 16 with a file and without one.
    bases = {len(model.read(held).base) for held in held_all if held is not None and refusal(model.read, held) == 0}
    same(sorted(bases)[:6], [10, 11, 12, 13, 14, 15])
    refused = [(command_of(line), held is None) for held, line in pairs if on_file(held, line)[1] == b"refused 16"]
    same(sorted(set(refused)), [(b"build", False), (b"build", True), (b"renew", False)])


@lru_cache(maxsize=None)
def made_record():
    """The record of the made commands."""
    return make_vectors.make()


@lru_cache(maxsize=None)
def made_files():
    """The made files."""
    return make_vectors.bytes_of(made_record())


def block_of(files):
    """The block of figures in the made files: each line of text, with its commands and their answers."""
    asked = [line.decode("latin-1") for line in lines_of(files["crates/control_chart/stdin"])]
    answers = iter(files["crates/control_chart/stdout"].decode("ascii").split("\n"))
    texts = []
    for line in asked[:asked.index("# words formed alone")]:
        if line.startswith("# "):
            texts.append((line[2:], []))
        elif line:
            texts[-1][1].append((line, next(answers)))
    first = [text for text, _ in texts].index(
        "== The figures of document 01 and the cases of its readings, as document 02 changes them")
    return texts[first:]


def cases_in(text):
    """The cases of a text in the form of FIGURES."""
    cases = []
    for line in text.split("\n")[:-1]:
        if line.startswith("# "):
            cases.append((line[2:], []))
        else:
            cases[-1][1].append(tuple(line.split(" = ")))
    return cases


def last_answer(steps):
    """The last answer that is not that of `show`."""
    return [answer for command, answer in steps if command != "show"][-1]


def test_made():
    """The made files: their paths, and the answers to the commands, read from their bytes."""
    files = made_files()
    same(sorted(files), ["crates/control_chart/stdin", "crates/control_chart/stdout"])
    asked = files["crates/control_chart/stdin"]
    same(asked.startswith(b"\xef\xbb\xbf# the chart of zeros"), True)
    same(asked.split(b"\n")[-1], b"word 1 1 2 0\r")
    same(files["crates/control_chart/stdout"].endswith(b"\nword 6667\n"), True)
    answers = answers_of(asked)
    same(b"".join(answer + b"\n" for answer in answers if answer is not None) == files["crates/control_chart/stdout"],
         True)


def test_block():
    """The block of figures: each case once, and a heading for every reading that a command can express."""
    texts = block_of(made_files())
    labels = [text for text, steps in texts if steps]
    headings = [text for text, steps in texts if not steps]
    same([label for label in labels if labels.count(label) > 1], [])
    same(len(labels), 587)
    found = {int(number) for heading in headings
             for numbers in re.findall(r"READINGS (\d+(?:, \d+)*)", heading) for number in numbers.split(", ")}
    # 13, 23 and 29 to 31 are about definitions, chart values handed in, the type of the lines, and lists. 3 is about
    # halves, which document 02, Q-3, rounds in another way.
    same(sorted(found), [number for number in range(1, 33) if number not in (3, 13, 23, 29, 30, 31)])
    same(sorted(READINGS), sorted(found))
    found = {int(number) for heading in headings
             for numbers in re.findall(r"READINGS-02 (\d+(?:, \d+)*)", heading) for number in numbers.split(", ")}
    # 8 and 9 are about the sums of the rounds (document 02, Q-5). No command shows them.
    same((sorted(found), sorted(READINGS_02)), ([*range(1, 8), *range(10, 15)],) * 2)
    for request in ("document 02, Q-1: ", "document 02, Q-3: ", "document 02, Q-4: "):
        same((request, any(heading.startswith(request) for heading in headings)), (request, True))


def test_outcomes():
    """The made commands: for each kind every verdict and trend, every end of a reanalysis, halves, and every tail."""
    table = made_record().table
    wanted = ["post as word 366, verdict %d" % verdict for verdict in range(5)]
    for kind in (1, 2, 3):
        verdicts = (1, 2, 3) if kind == 1 else (1, 2, 3, 4)
        wanted += ["post kind %d verdict %d" % (kind, verdict) for verdict in (0, *verdicts)]
        wanted += ["reanalyse kind %d verdict %d %s" % (kind, verdict, ended)
                   for verdict in verdicts for ended in ("passed", "failed")]
        for way in ("rising", "falling"):
            wanted.append(TREND_ACROSS.format(kind=kind, way=way))
            wanted += [TREND_ON_ONE_SIDE.format(kind=kind, verdict=verdicts[-1], way=way, side=side)
                       for side in ("above", "below")]
            wanted += ["reanalyse kind %d verdict 3, %s, %s" % (kind, way, ended) for ended in REANALYSED_TREND]
            wanted += ["reanalyse kind %d verdict 4 on a trend, %s %s the mean, %s" % (kind, way, side, ended)
                       for side in ("above", "below") for ended in ("passed", "failed") if kind != 1]
        # Document 02, Q-1: 1 and 2 still come first where 4 and 3 apply too.
        wanted += [TREND_ON_ONE_SIDE.format(kind=kind, verdict=verdict, way="rising", side="above")
                   for verdict in (1, 2)]
    wanted += ["read accepted status %d verdict %d" % (status, verdict)
               for status in (1, 2) for verdict in (1, 2, 3, 4)]
    # Document 02, Q-3: halves as words, posts and reanalyses.
    wanted += ["%s kind %d halfway, %s 0, whole part %s" % (command, kind, side, part)
               for command in ("word", "post", "reanalyse") for part in ("even", "odd")
               for kind, side in ((1, "above"), (2, "above"), (3, "above"), (3, "below"))]
    # Document 02, Q-4: builds by the words that stand, renewals by the tail used, and all that is refused with 16.
    for kind in (1, 2, 3):
        wanted += ["build kind %d of %d words, %d standing" % (kind, size, left)
                   for size in (15, 16, 17, 20, 32) for left in (14, 15, 16) if left <= size]
        wanted += ["build kind %d refused 16, rounds %d" % (kind, rounds) for rounds in (2, 3, 4, 7, 19)]
        wanted += ["renew kind %d by a tail of %d" % (kind, count) for count in range(15, 33)]
        wanted += ["renew kind %d by a longer tail, rounds %d" % (kind, rounds) for rounds in range(1, 19)]
        wanted += ["renew kind %d%s" % (kind, told) for told in (
            ", not the rounds of the last 15", ", not the removals of the last 15", " refused 16",
            " where a longer tail will not do", " where no longer tail will do")]
        wanted += ["%s kind %d with a base of %d" % (command, kind, size)
                   for command in ("read", "renew") for size in range(10, 15)]
        wanted.append("renew refused 16 on a full series, kind %d" % kind)
        if kind != 1:
            wanted.append("renew kind %d by a longer tail, removals on both sides" % kind)
    wanted += ["renew by all there are, %d words" % count for count in range(15, 32)]
    wanted += ["renew without posts, a base of %d" % count for count in range(15, 33)]
    wanted += ["renew refused 16 of %s" % count for count in (15, 16, 17, 31, "32 words or more")]
    wanted += ["renew refused 16 with a base of 15 or more", "build refused 3 where 16 applies too",
               "renew refused 8 where 16 applies too", "renew refused 12 where 16 applies too"]
    same([name for name in wanted if name not in table], [])
    # A trend on one side is never 3, save for kind 1, and one across the mean is never 4.
    never = [TREND_ON_ONE_SIDE.format(kind=kind, verdict=3, way=way, side=side)
             for kind in (2, 3) for way in ("rising", "falling") for side in ("above", "below")]
    never += [TREND_ON_ONE_SIDE.format(kind=kind, verdict=4, way=way, side="across")
              for kind in (1, 2, 3) for way in ("rising", "falling")]
    same([name for name in never if name in table], [])


def test_made_halves():
    """Document 02, Q-3, in the made words: halves of each sort, what is next to them, and both ends of the range."""
    asked = [line.split() for line in made_files()["crates/control_chart/stdin"].decode("latin-1").split("\n")]
    words = {tuple(map(int, fields[1:])) for fields in asked if fields[:1] == ["word"] and len(fields) == 5
             and all(re.fullmatch("-?[0-9]{1,18}", field) for field in fields[1:])}
    sorts, near = set(), set()
    for kind, a, b, c in words:
        if choices.formed(kind, (a, b, c)) is None:
            continue
        if choices.half(kind, a, b, c):
            reading = a if kind == 2 else abs(a - b)
            sorts.add((kind, choices.half(kind, a, b, c), "odd" if reading // (2 if kind == 1 else 1) % 2 else "even"))
            # The quotients just below and above: the greater reading is changed by one.
            beside = [(a + off, b) if kind == 2 or a > b else (a, b + off) for off in (-1, 1)]
            if all((kind, *pair, c) in words for pair in beside):
                near.add((kind, choices.half(kind, a, b, c)))
    sides = [(kind, "%s 0, whole part %s" % (side, part)) for part in ("even", "odd")
             for kind, side in ((1, "above"), (2, "above"), (3, "above"), (3, "below"))]
    same(sorted(sorts), sorted((*place, reading) for place in sides for reading in ("even", "odd")))
    same(sorted(near), sorted(sides))
    # Both ends: 0.5, 1.5 and 2.5, then 19999.5, 20000.5 and 20001.5.
    for numbers, wanted in (((1, 40001, 39999, 0), 0), ((1, 40003, 39997, 0), 2), ((1, 8001, 7999, 0), 2),
                            ((1, 79999, 1, 0), 20000), ((2, 1, 20000, 0), 0), ((2, 3, 20000, 0), 2),
                            ((2, 1, 4000, 0), 2), ((2, 39999, 20000, 0), 20000), ((2, 40001, 20000, 0), 20000),
                            ((2, 40003, 20000, 0), None), ((3, 0, 1, 20000), 0), ((3, 0, 1, 4000), -2),
                            ((3, 0, 40001, 20000), -20000), ((3, 0, 40003, 20000), None),
                            ((3, 40001, 0, 20000), 20000), ((3, 40003, 0, 20000), None)):
        same((numbers, numbers in words, choices.formed(numbers[0], numbers[1:])), (numbers, True, wanted))


def test_figures():
    """Figures from the course, in the made files: label, commands and answers."""
    block = dict(block_of(made_files()))
    words = {name: " ".join(map(str, base)) for name, base in (("A", A), ("B", B), ("C", C))}
    for label, steps in cases_in(FIGURES.format(UP=UP, FOURTEEN=FOURTEEN, **words)):
        same((label, block.get(label)), (label, steps))
    lines = last_answer(block["C, lines"]).split()[1:]
    same(sorted(256 * float(line) for line in lines), [2559740, 2559873, 2560136, 2560400, 2560533])


def test_examples():
    """Numbers for what is declined, and the readings, in the made files."""
    block = dict(block_of(made_files()))
    for label, number in EXAMPLES.items():
        same((label, last_answer(block[label])), (label, "refused %d" % number))
    for number, answers in READINGS.items():
        for label, answer in answers.items():
            same((number, label, last_answer(block[label])), (number, label, answer))
    for number, answers in READINGS_02.items():
        for label, answer in answers.items():
            same((number, label, last_answer(block[label])), (number, label, answer))
    for label, shown in SHOWN_AFTER.items():
        command, answer = block[label][-1]
        same((label, command, answer.endswith(" " + shown)), (label, "show", True))
    for front, right in STORED_OPEN.items():
        for status in (1, 2):
            for verdict in (3, 4):
                label = "%s, status %d, verdict %d" % (front, status, verdict)
                same((label, last_answer(block[label])), (label, "read" if verdict == right else "refused 14"))
    calls = block["A, a trend on one side and its reanalyses"]
    same([answer for command, answer in calls[7:] if command not in ("show", "lines")], ONE_SIDE_CALLS)
    # Reading 4: the status is still 1. Reading 18: the status is 0. Reading 19: the verdict stays.
    for label, status, verdict in (("A after 10250 10301, reanalysis of X 30000, A 10000", 1, 1),
                                   ("A after 10250 10301: 10250", 0, 0),
                                   ("A after that: 10302 (that: 10250 10301)", 2, 1),
                                   ("A after 10150 seven times, correction", 1, 4),
                                   # Document 02, Q-1: 4 sets status 2, a correction 1, and a word that fails 2 again.
                                   ("A, posts 10110 up to 10170 by tens", 2, 4),
                                   ("A after 10110 up to 10170: 10159", 2, 4),
                                   ("A after 10110 up to 10170, correction", 1, 4),
                                   ("A after that: 10159 (that: 10110 up to 10170, correction)", 2, 4),
                                   ("A after that: 10099 (that: 10110 up to 10170, correction)", 0, 0),
                                   # Document 02, Q-3: 7 leaves the status, and 20000 fails.
                                   ("A after 10250 10301, reanalysis of X 200005, A 100000", 2, 1),
                                   ("A after 10250 10301, reanalysis of X 200006, A 100000", 1, 1)):
        same(block[label][-1][1].split()[3:7], ["status", str(status), "verdict", str(verdict)])


def day_in_file(session, name):
    """Runs the day on a file of the session."""
    lines = DAY_IN_FILE.format(A=" ".join(map(str, A))).splitlines()
    for command, answer, status_line in zip(lines[0::3], lines[1::3], lines[2::3]):
        same(session.file_command(name, command.split()), answer + "\n")
        same("# %d" % session.status, status_line)


def test_day():
    """The day of the examples: the made file, and the bytes that they keep."""
    same(make_day.files(), {"examples/day.txt": DAY})
    lines, form = make_day.day()
    same(("".join(line + "\n" for line in lines).encode(), form, len(form)), (DAY, DAY_FORM, 52))
    # The same day with a chart in a file leaves the same bytes.
    session = Session()
    day_in_file(session, "lead.chart")
    same(session.files, {"lead.chart": DAY_FORM})
    # Without the texts, the lines are the answers to the same commands.
    answers = [line for line in DAY_IN_FILE.splitlines() if line.split()[0] in ("built", "lines", "word", "refused")]
    same([line.partition(":")[0] for line in lines[1:-1]], [line for line in answers if line != "lines"])


def test_transcript():
    """The answers to a transcript: files by their names, standard input, errors about files, the exit status."""
    session = Session()
    same((session.files, session.status), ({}, 0))
    for name, arguments, wanted, status_wanted in (
            ("lead.chart", ["show"], "error: lead.chart: there is no such file; build makes it\n", 3),
            ("lead.chart", [], "error: lead.chart: missing command; control_chart help lists the commands\n", 3),
            ("lead.chart", ["build", "2", "5"], "refused 2\n", 2),
            ("lead.chart", ["build", "2"] + list(map(str, A)), "built rounds 1 removed 0\n", 0),
            ("zinc.chart", ["build", "1"] + list(map(str, K)), "built rounds 1 removed 0\n", 0),
            ("lead.chart", ["post", "2", "10301", "10000", "0"], "word 10301 verdict 1\n", 1),
            ("lead.chart", ["post 2", "1 1 0"], "refused 8\n", 2),
            ("zinc.chart", ["post", "1", "5", "5", "0"], "word 0 verdict 0\n", 0),
            ("zinc.chart", ["post", "2", "5", "5", "0"], "refused 4\n", 2),
            ("lead.chart", ["x"], "error: unknown command; control_chart help lists the commands\n", 3)):
        same((session.file_command(name, arguments), session.status), (wanted, status_wanted))
    zinc = model.stored_form(Chart(1, K, (0,), 0, 0))
    same(session.files, {"lead.chart": A_OUT, "zinc.chart": zinc})
    # Standard input has a chart of its own, and no file.
    for text, wanted, status_wanted in (
            ("", "", 0), ("# x\n\n", "", 0), ("show\n", "chart kind 0 status 0 verdict 0 base 0 series 0\n", 0),
            ("word 2 990 1000 0\nword 2 1010 1000 0\n", "word 9900\nword 10100\n", 0),
            ("word 1 65 63 0\npost 2 1e3 1000 0\n",
             "word 312\nerror: not a number; numbers are whole and in decimal, as 10250 or -313\n", 3),
            ("post 2 1 1 0", "refused 14\n", 2)):
        same((session.input_commands(text), session.status), (wanted, status_wanted))
    same(session.files, {"lead.chart": A_OUT, "zinc.chart": zinc})
    # The caller changes files between commands: a copy, a byte cut off, a file removed.
    session.files["copy"] = session.files["lead.chart"]
    session.files["lead.chart"] = session.files["lead.chart"][:-1]
    del session.files["zinc.chart"]
    same(session.file_command("lead.chart", ["correct"]), "error: lead.chart: %s\n" % REFUSED_13.decode())
    same(session.file_command("zinc.chart", ["lines"]), "error: zinc.chart: %s\n" % NO_FILE.decode())
    same(session.file_command("copy", ["reanalyse", "2", "10301", "10000", "0"]), "word 10301 failed\n")
    same(session.files, {"lead.chart": A_OUT[:-1], "copy": A_OUT[:6] + b"\2" + A_OUT[7:]})
    # Two sessions do not share their files.
    same(Session().files, {})
    day_in_file(session, "another")
    # A call that is no command on a file gets no answer here.
    for name, arguments in (("help", []), ("--version", []), ("post", ["2", "1", "1", "0"]), ("", ["show"]),
                            ("copy", ["show\nshow"])):
        try:
            session.file_command(name, arguments)
            answered = True
        except ValueError:
            answered = False
        same((name, answered), (name, False))


def said(function, *given):
    """What a function gives, and what it prints."""
    with redirect_stdout(io.StringIO()) as out, redirect_stderr(io.StringIO()) as errors:
        given_back = function(*given)
    return given_back, out.getvalue(), errors.getvalue()


def test_expected():
    """expected.py: it finds what differs, names it and cuts it; a check writes nothing."""
    same(expected.difference(b"a\nb\n", b"a\nb\n"), None)
    same(expected.difference(b"a\nb\n", b"a\nc\n"), (2, r"'b\n'", r"'c\n'"))
    same(expected.difference(b"a\nb\n", b"a\nb"), (2, r"'b\n'", "'b'"))
    same(expected.difference(b"a\nb\r\n", b"a\nb\n"), (2, r"'b\r\n'", r"'b\n'"))
    same(expected.difference(b"a\nb\n", b"a\n"), (2, r"'b\n'", "the end of the file"))
    same(expected.difference(b"", b"a\n"), (1, "the end of the file", r"'a\n'"))
    long_line = b"x" * 300
    same(expected.difference(long_line + b"y" * 300, long_line + b"z" * 300),
         (1, ".. '%s%s' .." % ("x" * 40, "y" * 60), ".. '%s%s' .." % ("x" * 40, "z" * 60)))
    files = {"one/file": b"a\nb\n", "file": b""}
    with tempfile.TemporaryDirectory() as root:
        same(said(expected.check, files, root)[:2],
             (1, "one/file is missing\nfile is missing\n2 of 2 files are not as the model makes them\n"))
        same(os.listdir(root), [])
        said(expected.write, files, root)
        same(said(expected.check, files, root)[:2], (0, "2 files are as the model makes them\n"))
        with open(os.path.join(root, "one", "file"), "wb") as file:
            file.write(b"a\nB\n")
        same(said(expected.check, files, root)[:2],
             (1, "one/file differs at line 2\n  expected 'b\\n'\n  found    'B\\n'\n"
                 "1 of 2 files are not as the model makes them\n"))
    for arguments in (["--chek"], ["--check", "--check"], [""]):
        same(said(expected.main, arguments), (2, "", "usage: python3 tests/model/expected.py [--check]\n"))
    same(sorted(expected.made()), ["crates/cases/stdin", "crates/cases/stdout", "crates/control_chart/stdin",
                                   "crates/control_chart/stdout", "examples/day.txt", "tests/clients/calls.txt"])


def main():
    for test in (test_words, test_rounding, test_chosen_readings, test_stored_words, test_building, test_sums_given,
                 test_sums_afresh, test_fifteen_standing, test_tails_afresh, test_far_words, test_verdicts,
                 test_one_side_before_trend, test_reanalysis, test_order, test_stored_form, test_lines, test_commands,
                 test_ends_and_fronts, test_statuses, test_files, test_file_cases, test_made, test_block,
                 test_outcomes, test_made_halves, test_figures, test_examples, test_day, test_transcript,
                 test_expected):
        test()
    print("%d passed, 0 failed" % PASSED)


if __name__ == "__main__":
    main()
