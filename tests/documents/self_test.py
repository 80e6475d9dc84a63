"""The self-test: a small tree whose documents are true, and faults in it, each of which its check must find."""

import os
import shutil
import sys
import tempfile
from collections import namedtuple

import check
import crates_named
import edits
import examples
import functions
import interface
import layout
import links
import meanings
import names
import quotes
import transcripts
from tree import Faults, Tree

# A fault: what it is, the check that must find it, the changes as (file, old text, new text), and the beginning of the line
# that reports it.
Case = namedtuple("Case", "title module changes begins")

WORDS = "9900 " * 7 + "10100 " * 7 + "10000"

README = """\
# Small

See [what is
claimed](docs/CLAIMS.md), [RULES](docs/RULES.md), [BENCH](docs/BENCH.md#bench), [C](docs/C.md), [NOTES](docs/DECISIONS.md#twice-1)
and [`docs/LIBRARY.md`](docs/LIBRARY.md). The proofs refuse 2 wrong programs.

    $ printf 'word 2 990 1000 0\\n' | control_chart
    word 9900
    # a remark

From C:

    #include "control_chart.h"

    int main(void);

The crates:

    rules --- words
"""

DAY_SH = """\
cat << 'END'
$ printf 'word 2 990 1000 0\\n' | control_chart
END
control_chart
echo '# a remark'
"""

BENCH = """\
# Bench

[MUST-FAIL](MUST-FAIL.md), [CHANGES](CHANGES.md), [PERFORMANCE](PERFORMANCE.md), [REFUSALS](REFUSALS.md), [PORT](PORT.md).

| Command | Answer |
|---|---|
| `word K A B C` | `word W` |
| `build K W1 .. Wn` | `built rounds R removed M` |
| `show` | `chart ..` |
| anything else | `error:` |

```
$ words='%s'
$ control_chart lead.chart build 2 $words
built rounds 1 removed 0
$ control_chart lead.chart post 2 1031 1000 0
word 10310 verdict 1
# status 1: hold the batch
$ control_chart lead.chart \\
    show | fold -s
chart kind 2 status 1 verdict 1 base 15 9900 9900 9900 9900 9900 9900 9900
10100 10100 10100 10100 10100 10100 10100 10000 series 1 10310
```

A command on a file that is not there:

    $ control_chart other.chart show
    error: other.chart: there is no such file; build makes it
    $ echo $?
    3
""" % WORDS

CLAIMS = """\
# Claims

## Demand 3: one claim over whole lists

Definition: `Word.nearest`, `IsNearest`; `rules/specs/Word`: `close`, `nearest`. Law: `Word.nearest_is`.
Contract: `words::word`, `all_words`, `words::Formed::Word(i16)`, `rounding::half`, `Formed::Refused`, `Limits.low`,
`Limits::MOST`. Others: `words/specs/Formed.Says.refused`, `Word.nearest z d`; `inner`; `word W`; `show`; `crates/*/src`;
`Word.antt`; `words/proofs/word/Answers.returns`; `rules/must-fail`: `cut_off`; `words/turned`; `built
rounds R removed M`. See [demand 3](#demand-3-one-claim-over-whole-lists).
%s

    pub record IsNearest (z : Z) : Type 0 where
      pub close : Z
      pub even : Z
""" % "\n".join("`%s`" % name for name in names.OTHER)

MUST_FAIL = """\
# Must-fail edits

| Edit | The fact |
|---|---|
| `rules/cut_off` | `figures` |

- `words/turned`: `words::word` answers another word.

| Crate | Edits |
|---|---|
| `rules` | 1 |
| `words` | 1 |
| all | 2 |
"""

LIBRARY = """\
# Library

`words` has `words::word`, in `crates/words/src/lib.rt`:

    use words::Formed;
    match words::word(2, 990, 1000, 0) { Formed::Word(w) => {}, Formed::Refused(n) => {} }
"""

DECISIONS = """\
# Decisions

## Twice

`Formed.Says` is in `words/specs/Formed`. `std::num` is not ours.

## Twice

`control_chart_word` begins with `control_chart_`.
"""

C = """\
# C

`control_chart_word` answers `CONTROL_CHART_DONE`. Names of verdicts begin with `CONTROL_CHART_VERDICT_`.
"""

REFUSALS = """\
# Refusals

    #!/bin/sh
    exit 0

| No. | Text | What to do |
|---|---|---|
%s
""" % "\n".join("| %d | %s | see the rules |" % row for row in interface.REFUSAL_TEXTS.items() if row[0])

RULES = """\
# Rules

| Verdict | Text | When |
|---|---|---|
%s
""" % "\n".join("| %d | %s | always |" % row for row in interface.VERDICT_TEXTS.items())

HEADER = """\
#define CONTROL_CHART_VERSION "%s"

%s

%s

uint16_t control_chart_word(uint32_t kind,
                            int16_t *word);
""" % (interface.VERSION,
       "\n".join("#define CONTROL_CHART_%s %d  /* %s */" % (("N%d" % number if number else "DONE"), number, text)
                 for number, text in interface.REFUSAL_TEXTS.items()),
       "\n".join("#define CONTROL_CHART_VERDICT_%d %d  /* %s */" % (number, number, text)
                 for number, text in interface.VERDICT_TEXTS.items()))

HELP = """\
command             answer
word K A B C        word W                      a word
build K W1 .. Wn    built rounds R removed M    a chart
show                chart ..
any, refused        refused N                   nothing changed

verdict V:
%s
Verdict 4 is for kinds 2 and 3.

refused N:
%s
""" % ("\n".join("%2d  %s" % row for row in interface.VERDICT_TEXTS.items()),
       "\n".join("%2d  %s" % row for row in interface.REFUSAL_TEXTS.items() if row[0] not in (0, 15)))

# The program of the small tree knows the commands of its documents, and nothing else.
PROGRAM = """\
#!/bin/sh
case "$*" in
    help) cat "$(dirname "$(readlink -f "$0")")/help" ;;
    --version) echo 'control_chart %s' ;;
    '') echo word 9900 ;;
    'lead.chart build '*) echo built rounds 1 removed 0 ;;
    'lead.chart post '*) echo word 10310 verdict 1; exit 1 ;;
    'lead.chart show') echo chart kind 2 status 1 verdict 1 base 15 %s series 1 10310 ;;
    'other.chart show') echo 'error: other.chart: there is no such file; build makes it' >&2; exit 3 ;;
esac
""" % (interface.VERSION, WORDS)

WORD_SPECS = """\
-- nearest_mention : only a mention
use Rattle.std.specs.Prelude.{◌≡◌, ℤ as Z}

unfoldable pub nearest : Z
nearest z d = z

pub record IsNearest (z : Z) : Type 0 where
  pub close : Z
  -- a comment between
  pub even : Z
"""

WORD_PROOFS = """\
pub nearest_is {ℓ} : {P : Type ℓ} → Z
module _ (z : Z) where
  module _ (d : Z) where
    pub inner : Z
    inner = z
"""

FORMED = """\
pub data Says : Type 0 where
  said : Z
  refused : Z
"""

# The proof of a function: its goals. The other function has no file, since the checker finds its proof.
WORD_ANSWERS = """\
use borrow.Author.Rules.{rules}
use Rattle.words.proofs.word.Goals as goal

pub returns : goal.returns
returns c = search rules
"""

WORDS_LIB = """\
#![tactic(auto)]

mod rounding;

ghost use Rattle.std.specs.Prelude.{◌≡◌, ◌+◌};
ghost use Rattle.rules.specs.Word.{nearest, only_in_a_use};

pub enum Formed {
    Word(i16),
    Refused(u16),
}

pub struct Limits {
    pub low: i16,
}

impl Limits {
    pub const MOST: usize = 2;
}

pub fn word(kind: u16) -> Formed
    requires { kind + 1 ≤ only_in_a_clause }
    ensures { result ≡ nearest kind }
{
    // fn only_a_mention
}

fn all_words() {}
"""

FILES = {
    "README.md": README,
    "docs/BENCH.md": BENCH,
    "docs/C.md": C,
    "docs/CHANGES.md": "# Changes\n",
    "docs/CLAIMS.md": CLAIMS,
    "docs/DECISIONS.md": DECISIONS,
    "docs/LIBRARY.md": LIBRARY,
    "docs/MUST-FAIL.md": MUST_FAIL,
    "docs/PERFORMANCE.md": "# Performance\n",
    "docs/PORT.md": "# Port\n\n`Word.nearest-is` is `Word.nearest_is` now, and `words::formed` is `words::word`.\n",
    "docs/REFUSALS.md": REFUSALS,
    "docs/RULES.md": RULES,
    "tests/model/README.md": "# Model\n",
    "examples/day.c": '#include "control_chart.h"\n\nint main(void);\n',
    "examples/day.sh": DAY_SH,
    "examples/post_results.sh": "#!/bin/sh\nexit 0\n",
    "include/control_chart.h": HEADER,
    "bin/control_chart": PROGRAM,
    "bin/help": HELP,
    "crates.txt": "# Definitions.\nrules:\nwords: rules\n",
    "crates/rules/specs/Word.antt": WORD_SPECS,
    "crates/rules/proofs/Word.antt": WORD_PROOFS,
    "crates/rules/must-fail/cut_off.edit": "",
    "crates/words/specs/Formed.antt": FORMED,
    "crates/words/proofs/word/Answers.antt": WORD_ANSWERS,
    "crates/words/src/lib.rt": WORDS_LIB,
    "crates/words/src/rounding.rt": "pub fn half() {}\n",
    "crates/words/must-fail/turned.edit": "",
}

CLAIMS_QUOTE = CLAIMS.split("\n").index("    pub record IsNearest (z : Z) : Type 0 where") + 1
WRONG_ANSWER = ("bin/control_chart", "built rounds 1", "built rounds 2")
MACHINE = "/" + "work/x"


def case(title, module, file, old, new, begins):
    return Case(title, module, [(file, old, new)], begins)


CASES = [
    case("a long line", layout, "docs/C.md", "# C\n", "# C%s\n" % ("." * 138), "docs/C.md:1: found a line of 141 columns"),
    case("a long README", layout, "README.md", "# Small\n", "# Small\n" + "\n" * 140, "README.md:159: found 159 lines"),
    case("a tab", layout, "docs/C.md", "# C\n", "# C\n\tx\n", "docs/C.md:2: found a tab"),
    case("a carriage return", layout, "docs/C.md", "# C\n", "# C\r\n", "docs/C.md:1: found a carriage return"),
    case("a blank at an end", layout, "docs/C.md", "# C\n", "# C \n", "docs/C.md:1: found a blank"),
    case("a path of a machine", layout, "docs/C.md", "# C\n", "# C\n`%s`\n" % MACHINE, "docs/C.md:2: found `/work`"),
    case("a backtick alone", layout, "docs/C.md", "# C\n", "# C\n\nHere ` is one.\n", "docs/C.md:3: found a backtick"),
    case("a missing document", layout, "docs/C.md", C, None, "docs/C.md: found no such file"),

    case("a file that is not there", links, "README.md", "(docs/C.md)", "(docs/D.md)", "README.md:4: found a link to docs/D.md"),
    case("a heading that is not there", links, "README.md", "#bench", "#desk", "README.md:4: found a link to docs/BENCH.md#desk"),
    case("a second heading that is not there", links, "README.md", "#twice-1", "#twice-2", "README.md:4: found a link to docs/D"),
    case("a wrapped link", links, "README.md", "docs/CLAIMS.md", "docs/CLAIM.md", "README.md:3: found a link to docs/CLAIM.md"),
    case("an anchor in no document", links, "README.md", "docs/C.md", "crates.txt#a", "README.md:4: found a link to crates.txt#a"),
    case("a link out of the tree", links, "README.md", "docs/C.md", "../x", "README.md:4: found a link to ../x"),
    case("a document without a link", links, "docs/BENCH.md", "[CHANGES](CHANGES.md), ", "", "README.md: found no way to docs/CH"),
    case("no way to demand 3", links, "README.md", "docs/CLAIMS.md", "docs/C.md", "README.md: found no way to docs/CLAIMS.md in"),
    case("no link to demand 3 itself", links, "docs/CLAIMS.md", "](#demand", "](docs/CLAIMS.md#demand", "README.md: found no way to docs/CLAIMS.md#demand-3"),
    case("no heading of demand 3", links, "docs/CLAIMS.md", "Demand 3: one", "Demand 3, a", "docs/CLAIMS.md: found no heading"),

    case("a definition", names, "docs/CLAIMS.md", "`Word.nearest`,", "`Word.neares`,", "docs/CLAIMS.md:5: found `Word.neares`"),
    case("a mention", names, "docs/CLAIMS.md", "`inner`", "`nearest_mention`", "docs/CLAIMS.md:7: found `nearest_mention`"),
    case("a mention in code", names, "docs/CLAIMS.md", "`inner`", "`only_a_mention`", "docs/CLAIMS.md:7: found `only_a_mention`"),
    case("a name of a clause", names, "docs/CLAIMS.md", "`inner`", "`only_in_a_clause`", "docs/CLAIMS.md:7: found `only_in_a_clause`"),
    case("a name of a use line", names, "docs/CLAIMS.md", "`inner`", "`only_in_a_use`", "docs/CLAIMS.md:7: found `only_in_a_use`"),
    case("a goal", names, "docs/CLAIMS.md", "`inner`", "`returns`", "docs/CLAIMS.md:7: found `returns`"),
    case("a goal of a file", names, "docs/CLAIMS.md", "Answers.returns", "Answers.return", "docs/CLAIMS.md:8: found `words/proofs/"),
    case("a file of proofs that is gone", names, "crates/words/proofs/word/Answers.antt", WORD_ANSWERS, None, "docs/CLAIMS.md:8: found"),
    case("a law", names, "docs/CLAIMS.md", "`Word.nearest_is`", "`Word.nearest_was`", "docs/CLAIMS.md:5: found `Word.nearest_was`"),
    case("a name behind a file", names, "docs/CLAIMS.md", "`close`,", "`inner`,", "docs/CLAIMS.md:5: found `inner`"),
    case("a name behind a name", names, "docs/CLAIMS.md", "`all_words`", "`half`", "docs/CLAIMS.md:6: found `half`"),
    case("a file of definitions", names, "docs/CLAIMS.md", "`rules/specs/Word`", "`rules/specs/Ward`",
         "docs/CLAIMS.md:5: found `rules/specs/Ward`"),
    case("a case of a type", names, "docs/CLAIMS.md", "Says.refused", "Says.refuse", "docs/CLAIMS.md:7: found `words/specs/Formed."),
    case("a function", names, "docs/CLAIMS.md", "`words::word`", "`words::words`", "docs/CLAIMS.md:6: found `words::words`"),
    case("a crate", names, "docs/CLAIMS.md", "`words::word`", "`word::word`", "docs/CLAIMS.md:6: found `word::word`"),
    case("a case of an enum", names, "docs/CLAIMS.md", "Word(i16)", "Ward(i16)", "docs/CLAIMS.md:6: found `words::Formed::Ward(i16)`"),
    case("a function of a module", names, "docs/CLAIMS.md", "::half", "::third", "docs/CLAIMS.md:6: found `rounding::third`"),
    case("a constant of a type", names, "docs/CLAIMS.md", "::MOST", "::LEAST", "docs/CLAIMS.md:7: found `Limits::LEAST`"),
    case("a field of a type", names, "docs/CLAIMS.md", "Limits.low", "Limits.high", "docs/CLAIMS.md:6: found `Limits.high`"),
    case("an answer of help", names, "docs/CLAIMS.md", "`word W`", "`word V`", "docs/CLAIMS.md:7: found `word V`"),
    case("a wrapped name", names, "docs/CLAIMS.md", "R removed", "M removed", "docs/CLAIMS.md:8: found `built rounds M removed M`"),
    case("a folder", names, "docs/CLAIMS.md", "`crates/*/src`", "`crates/*/scr`", "docs/CLAIMS.md:7: found `crates/*/scr`"),
    case("an edit behind its folder", names, "docs/CLAIMS.md", "`cut_off`", "`turned`", "docs/CLAIMS.md:8: found `turned`"),
    case("an edit with its crate", names, "docs/CLAIMS.md", "`words/turned`", "`rules/turned`", "docs/CLAIMS.md:8: found `rules/tu"),
    case("a listed name without use", names, "docs/CLAIMS.md", "`rt ci`", "`show`", "tests/documents/names.py: found `rt ci`"),
    case("a path elsewhere", names, "docs/DECISIONS.md", "words/specs/Formed`", "words/specs/Former`", "docs/DECISIONS.md:5: found"),
    case("a definition elsewhere", names, "docs/DECISIONS.md", "`Formed.Says`", "`Formed.Said`", "docs/DECISIONS.md:5: found"),
    case("a function elsewhere", names, "docs/MUST-FAIL.md", "words::word", "words::ward", "docs/MUST-FAIL.md:7: found `words::ward`"),
    case("a source elsewhere", names, "docs/LIBRARY.md", "src/lib.rt", "src/library.rt", "docs/LIBRARY.md:3: found `crates/words"),
    case("a name in code", names, "docs/LIBRARY.md", "use words::Formed", "use words::Form", "docs/LIBRARY.md:5: found `words::Form`"),

    case("a quote", quotes, "docs/CLAIMS.md", "      pub even : Z", "      pub odd : Z", "docs/CLAIMS.md:%d: found a quote" % CLAIMS_QUOTE),
    case("a quoted definition", quotes, "crates/rules/specs/Word.antt", "  pub close : Z\n", "", "docs/CLAIMS.md:%d: found a quote" % CLAIMS_QUOTE),

    case("an edit without entry", edits, "docs/MUST-FAIL.md", "| `rules/cut_off` |", "| cut off |", "docs/MUST-FAIL.md: found no entry"),
    case("an item for no edit", edits, "docs/MUST-FAIL.md", "- `words/turned`", "- `words/turning`", "docs/MUST-FAIL.md:7: found an en"),
    case("two entries", edits, "docs/MUST-FAIL.md", "| Crate", "- `words/turned`\n\n| Crate", "docs/MUST-FAIL.md:9: found a second"),
    case("a number of edits", edits, "docs/MUST-FAIL.md", "| `words` | 1 |", "| `words` | 2 |", "docs/MUST-FAIL.md:12: found 2 of ed"),
    case("the sum of edits", edits, "docs/MUST-FAIL.md", "| all | 2 |", "| all | 3 |", "docs/MUST-FAIL.md:13: found 3 of edits"),
    case("a number before wrong", edits, "README.md", "2 wrong", "143 wrong", "README.md:5: found 143 wrong"),

    case("a text of the header", meanings, "include/control_chart.h", "no reanalysis is", "no analysis is",
         "docs/REFUSALS.md:17: found refusal 10"),
    case("a define without text", meanings, "include/control_chart.h", "  /* done */", "", "include/control_chart.h:3: found `#def"),
    case("a text of REFUSALS", meanings, "docs/REFUSALS.md", "the divisor is 0", "the divisor is nil", "docs/REFUSALS.md:13: found"),
    case("a missing refusal", meanings, "docs/REFUSALS.md", "| 6 |", "| six |", "docs/REFUSALS.md: found no row of refusal 6"),
    case("a refusal twice", meanings, "docs/REFUSALS.md", "| 6 |", "| 5 |", "docs/REFUSALS.md: found more than one row of refusal 5"),
    case("a refusal too many", meanings, "docs/REFUSALS.md", "| 6 |", "| 17 |", "docs/REFUSALS.md:13: found refusal 17"),
    case("a text of help", meanings, "bin/help", "the divisor is 0", "the divisor is nil", "control_chart help:21: found refusal 6"),
    case("a verdict of RULES", meanings, "docs/RULES.md", "| none |", "| no |", "docs/RULES.md:5: found verdict 0: no"),
    case("no table of verdicts", meanings, "docs/RULES.md", "| Verdict |", "| No. |", "docs/RULES.md: found no table of verdicts"),
    case("a verdict of help", meanings, "bin/help", " 0  none", " 0  no", "control_chart help:8: found verdict 0: no"),
    case("the version", meanings, "include/control_chart.h", interface.VERSION, "9.9", "control_chart --version: found control_chart"),

    case("a function without a text", functions, "docs/C.md", "`control_chart_word`", "It", "docs/C.md: found no control_chart_word"),
    case("a function that is not there", functions, "docs/DECISIONS.md", "chart_word", "chart_ward", "docs/DECISIONS.md:9: found cont"),
    case("a macro that is not there", functions, "docs/C.md", "CHART_DONE", "CHART_GONE", "docs/C.md:3: found CONTROL_CHART_GONE"),
    case("macros that are not there", functions, "docs/C.md", "VERDICT_`", "VERDIKT_`", "docs/C.md:3: found CONTROL_CHART_VERDIKT_"),

    case("an answer", transcripts, "README.md", "word 9900", "word 9901", "README.md:8: found word 9901; expected word 9900 (from the p"),
    case("an answer by the model", transcripts, "README.md", "word 9900", "word 1", "README.md:8: found word 1; expected word 9900 (from the m"),
    case("a line too few", transcripts, "README.md", "    word 9900\n", "", "README.md:7: found no such line below"),
    case("a line too many", transcripts, "README.md", "    word 9900\n", "    word 9900\n    more\n", "README.md:9: found more"),
    case("a status", transcripts, "docs/BENCH.md", "# status 1", "# status 0", "docs/BENCH.md:18: found status 0; expected status 1"),
    case("a line behind a long command", transcripts, "docs/BENCH.md", "status 1 verdict 1 base", "status 2 verdict 1 base",
         "docs/BENCH.md:21: found chart kind 2 status 2"),
    case("the second block", transcripts, "docs/BENCH.md", "    3\n", "    0\n", "docs/BENCH.md:30: found 0; expected 3"),
    Case("a wrong program", transcripts, [WRONG_ANSWER], "docs/BENCH.md:15: found built rounds 1 removed 0; expected built rounds 2"),
    Case("a document after a wrong program", transcripts, [WRONG_ANSWER, ("docs/BENCH.md", "built rounds 1", "built rounds 2")],
         "docs/BENCH.md:15: found built rounds 2 removed 0; expected built rounds 1 removed 0 (from the model)"),
    case("a shell that ends", transcripts, "README.md", "$ printf", "$ exit; printf", "README.md:7: found $ exit"),
    case("a command for the tree", transcripts, "README.md", "$ printf", "$ make; printf", "README.md:7: found $ make"),
    case("a text above the first command", transcripts, "README.md", "    $ printf", "    word\n    $ printf", "README.md:7: found word"),
    case("a transcript elsewhere", transcripts, "docs/C.md", "# C\n", "# C\n\n    $ true\n\n", "docs/C.md:3: found a block"),
    case("a command that help does not list", transcripts, "docs/BENCH.md", "| `show` |", "| `shaw` |", "docs/BENCH.md:9: found the com"),
    case("a command without a row", transcripts, "docs/BENCH.md", "| `show` |", "| show |", "docs/BENCH.md: found no row of the command"),

    case("another C text", examples, "examples/day.c", "main(void)", "main()", "README.md:15: found int main(void);; expected int main();"),
    case("a C text that ends early", examples, "README.md", "\n    int main(void);\n", "", "README.md:14: found no such line"),
    case("no C text", examples, "README.md", "#include", "include", "README.md: found 0 blocks of examples/day.c"),
    case("another script", examples, "examples/post_results.sh", "exit 0", "exit 1", "docs/REFUSALS.md:4: found exit 0; expected exit 1"),
    case("another day", examples, "examples/day.sh", "a remark", "a mark", "README.md:9: found # a remark; expected # a mark"),
    case("a day that goes on", examples, "examples/day.sh", "echo '#", "echo more\necho '#", "README.md:9: found # a remark; expected more"),

    case("a crate without a name", crates_named, "crates.txt", "words:", "charts:", "crates.txt:3: found the crate `charts`"),
    case("a static library without a name", crates_named, "crates.txt", "words:", "words:\ncharts staticlib:",
         "crates.txt:4: found the crate `charts`"),
]


class SmallLibrary:
    """The texts of the model, in place of the shared object. One of the texts may be wrong."""

    def __init__(self, other=None):
        self.other = other

    def text(self, function, *number):
        if (function, *number) == self.other:
            return "another text"
        texts = {"control_chart_refusal_text": interface.refusal_text, "control_chart_verdict_text": interface.verdict_text,
                 "control_chart_version": interface.version}
        return texts[function](*number, interface.TEXT_MOST)


LIBRARY_CASES = (("control_chart_refusal_text", 8), ("control_chart_refusal_text", 17), ("control_chart_verdict_text", 4),
                 ("control_chart_verdict_text", 5), ("control_chart_version",))


def write(folder, changes):
    """The small tree with some texts changed; a new text of None removes the file."""
    files = dict(FILES)
    for file, old, new in changes:
        if old not in files[file]:
            raise ValueError("%r is not in %s" % (old, file))
        files[file] = None if new is None else files[file].replace(old, new)
    for file, text in files.items():
        if text is not None:
            path = os.path.join(folder, file)
            os.makedirs(os.path.dirname(path), exist_ok=True)
            with open(path, "w", encoding="utf-8", newline="") as out:
                out.write(text)
    os.chmod(os.path.join(folder, "bin", "control_chart"), 0o755)


def faults_of(module, changes, library):
    folder = tempfile.mkdtemp()
    try:
        write(folder, changes)
        faults = Faults()
        module.check(Tree(folder, library), faults)
        return faults
    finally:
        shutil.rmtree(folder)


def failures():
    """What the checks do not find, and what they report though nothing is wrong."""
    with tempfile.TemporaryDirectory() as folder:
        write(folder, [])
        faults, counts = check.compare(Tree(folder, SmallLibrary()), {sort: 1 for sort in check.LEAST})
        yield from ("the small tree: %s" % fault for fault in faults)
        if sorted(counts) != sorted(check.LEAST):
            yield "the sorts with a least number: %s; expected %s" % (sorted(check.LEAST), sorted(counts))
        few = check.compare(Tree(folder, SmallLibrary()), {sort: number + 1 for sort, number in counts.items()})[0]
        if len(few) != len(counts):
            yield "too few facts: %d faults; expected one for each of %d sorts" % (len(few), len(counts))
    for one in CASES:
        faults = faults_of(one.module, one.changes, SmallLibrary())
        if not any(fault.startswith(one.begins) for fault in faults):
            yield "%s: found %s; expected a line that begins with %r" % (one.title, faults or "no fault", one.begins)
    for other in LIBRARY_CASES:
        faults = faults_of(meanings, [], SmallLibrary(other))
        if len(faults) != 1 or not faults[0].startswith(other[0]) or "another text" not in faults[0]:
            yield "the library: found %s; expected one fault of %s" % (faults or "no fault", other)


def passed():
    """Whether each check finds its faults. What it does not find is printed."""
    found = list(failures())
    for failure in found:
        print("documents: self-test: %s" % failure)
    if not found:
        print("documents: self-test: %d faults, each found by its check" % (len(CASES) + len(LIBRARY_CASES)))
    return not found
