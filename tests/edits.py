#!/usr/bin/env python3
"""Tests .ci/edits on a small crate, with a script as rt whose logs are written by hand: what it holds, and what it has to refuse."""

import os
import shutil
import subprocess
import sys
import tempfile

TOP = os.path.realpath(os.path.join(os.path.dirname(os.path.realpath(__file__)), ".."))

FILES = {
    "src/lib.rt": """ghost use Rattle.demo.specs.Rules.{twice, thrice};

pub const LIMIT: u64 = 7;

// Twice x.
pub fn double(x: u64) -> u64
    ensures { result ≡ twice x }
{
    x + x
}

// Thrice x.
pub fn triple(x: u64) -> u64
    ensures { result ≡ thrice x }
{
    x * 3
}

// Twice x, below the limit.
pub fn limited(x: u64) -> u64
    ensures { result ≡ result }
{
    if x < LIMIT { double(x) } else { LIMIT }
}

// Whether x is small.
pub fn small(x: u64) -> bool
    ensures low { result ≡ result }
    ensures high { result ≡ result }
{
    if x < 48 {
        return true;
    }
    false
}

// Twice x by a definition that its tactics open.
#[tactic(auto, unfolding(crate::specs::Rules::twice))]
pub fn opened(x: u64) -> u64
    ensures { result ≡ x }
{
    x
}

// Once more, by a lemma.
#[tactic(auto, using(crate::proofs::Laws::even))]
pub fn cited(x: u64) -> u64
    ensures { result ≡ x }
{
    x
}

pub struct Held {
    pub value: u64,
}

impl From<Option<u64>> for Held {
    ghost from_gives = { λ given held. held ≡ held };

    fn from(given: Option<u64>) -> Held {
        Held {
            value: given.unwrap_or(5),
        }
    }
}
""",
    "proofs/small/Answers.antt": """use Rattle.demo.proofs.small.Goals as goal

pub returns-then-x-lt48 : goal.returns-then-x-lt48
returns-then-x-lt48 c = refl c.if-x-lt48.true (goal.at.returns-then-x-lt48-2 c) c.if-x-lt480.true
""",
    "specs/Rules.antt": "pub twice : ℕ → ℕ\ntwice x = 2 * x\n\npub thrice : ℕ → ℕ\nthrice x = 3 * x\n\npub data Side : Type 0 where\n  left right : Side\n",
    "proofs/double/Answers.antt": "use Rattle.demo.proofs.double.Goals as goal\n\npub returns : goal.returns\nreturns c = refl\n",
    "proofs/triple/Answers.antt": "use Rattle.demo.proofs.triple.Goals as goal\n\npub returns : goal.returns\nreturns c = refl\n",
    "specs/Uses.antt": "pub first : ℕ\nfirst = 1\n\nuse Rattle.demo.specs.Rules.{twice}\n\npub second : ℕ\nsecond = twice 1\n",
    "proofs/Blocks.antt": """use Rattle.demo.specs.Rules.{twice, thrice as three, right}
use Rattle.demo.specs.Uses.{second}

module _ (x : ℕ)
    (y : ℕ) where -- two numbers
  pub inner : three x ≡ three x
  inner = refl

  module _ (z : ℕ) where
    pub deep : three x ≡ three x
    deep = inner

module _ (h : twice 1 ≡ 2) where
    pub given : 1 ≡ 1
    given = refl

pub outer : three 1 ≡ three 1
outer = deep 1 1 1

pub side : right ≡ right
side = refl

pub two : second ≡ 2
two = refl
""",
    "proofs/Laws.antt": "use Rattle.demo.specs.Rules.{twice, thrice}\n\npub even : (x : ℕ) → twice x % 2 ≡ 0\neven x = refl\n\npub third : (x : ℕ) → thrice x % 3 ≡ 0\nthird x = refl\n\npub sixth : (x : ℕ) → twice (thrice x) % 6 ≡ 0\nsixth x = even (third x)\n\npub other : 1 ≡ 1\nother = refl\n",
}

FALSE = "the two sides are `1` and `2`"
DOUBLE = "# wrong: x = 2\n# refused: proofs/double/Answers.antt returns\nfile: src/lib.rt\nold:     x + x\nnew:     x + 1\n"
TRIPLE = "# wrong: x = 1\n# refused: proofs/triple/Answers.antt returns\nfile: src/lib.rt\nold:     x * 3\nnew:     x * 4\n"
LIMITED = "# wrong: x = 7\n# refused: demo::limited returns\nfile: src/lib.rt\nold: if x < LIMIT {\nnew: if x <= LIMIT {\n"
LAW = "# refused: proofs/Laws.antt even\nfile: specs/Rules.antt\nold: twice x = 2 * x\nnew: twice x = 3 * x\n"
THIRD = "# refused: proofs/Laws.antt third\nfile: specs/Rules.antt\nold: thrice x = 3 * x\nnew: thrice x = 4 * x\n"
IMPORT = "# refused: proofs/Blocks.antt two\nfile: specs/Uses.antt\nold: {twice}\nnew: {thrice}\n"
SIDE = "# refused: proofs/Blocks.antt side\nfile: specs/Rules.antt\nold:   left right : Side\nnew:   left right more : Side\n"
FROM = "# wrong: none\n# refused: demo::HeldFromOptionU64::from returns\nfile: src/lib.rt\nold: given.unwrap_or(5)\nnew: given.unwrap_or(6)\n"
CONTRACT = "# wrong: x = 1\n# refused: proofs/double/Answers.antt returns\nfile: src/lib.rt\nold: result ≡ twice x\nnew: result ≡ thrice x\n"
CONSTANT = "# wrong: x = 7\n# refused: demo::limited returns\nfile: src/lib.rt\nold: LIMIT: u64 = 7;\nnew: LIMIT: u64 = 8;\n"


def group(**edits):
    return "".join(f"# edit: {label}\n{text}\n" for label, text in edits.items())


def error(place, fact, text=FALSE):
    return f"./{place}:9:1: error: `{fact}`: {text}\n"


def goal(function, *facts, more=""):
    """What rattle says of a function with goals that its search did not prove, and why."""
    notes = "".join(f"note: src/lib.rt:9:1: it is not proved that what the function ensures holds when it returns (`{fact}`){more}\n" for fact in facts)
    listed = ", ".join(f"`{fact}`" for fact in facts)
    return f"{notes}help: if the code is right, say so\nfn {function}: no proof: expected answers in ./proofs/f/Answers.antt; `search` did not prove {listed}; it calls `demo::double`, which is not proved\n"


# An edit that makes two goals false.
BOTH = DOUBLE.replace("returns\n", "returns\n# refused: proofs/double/Answers.antt high\n")
AT_HIGH = error("proofs/double/Answers.antt", "high")
AT_LOW = error("proofs/double/Answers.antt", "low")

AT_DOUBLE = error("proofs/double/Answers.antt", "returns")
AT_TRIPLE = error("proofs/triple/Answers.antt", "returns")
AT_LIMITED = goal("demo::limited", "returns")
AT_LAW = error("proofs/Laws.antt", "even")
AT_SIDE = error("proofs/Blocks.antt", "side")
AT_THIRD = error("proofs/Laws.antt", "third")
AT_SIXTH = error("proofs/Laws.antt", "sixth")

# An edit of a condition, which goals have in their names, and what is said then.
SMALL = "# wrong: x = 48\n# refused: PLACE returns-then-x-lt49\nfile: src/lib.rt\nold: x < 48\nnew: x < 49\n"
BY_GOAL = SMALL.replace("PLACE", "demo::small")
BY_NAME = SMALL.replace("PLACE", "proofs/small/Answers.antt") + "# renamed: x-lt48 x-lt49\n"
NO_NAME = error("proofs/small/Answers.antt", "returns-then-x-lt48", "`goal.returns-then-x-lt48`: module `Rattle.demo.proofs.small.Goals` has no `returns-then-x-lt48` that can be named from here")
AT_SMALL = error("proofs/small/Answers.antt", "returns-then-x-lt49")
IS_FALSE = "; the facts known there allow values at which this goal is false"

# What is tried; the file of edits and its log; the exit status and a part of what is printed.
CASES = [
    ("an edit alone", DOUBLE, AT_DOUBLE, 0, "demo/tried: refused at proofs/double/Answers.antt returns"),
    ("an edit alone, at another fact first", DOUBLE, error("proofs/double/Answers.antt", "loop-i-preserved") + AT_DOUBLE, 1, "is refused after another fact of that place; the first is:\n    # refused: proofs/double/Answers.antt loop-i-preserved"),
    ("an edit alone, at another fact too", DOUBLE, AT_DOUBLE + error("proofs/double/Answers.antt", "loop-i-preserved"), 0, "1 refused"),
    ("an edit alone, at another fact", DOUBLE, error("proofs/double/Answers.antt", "loop-i-preserved"), 1, "proofs/double/Answers.antt returns is not refused; of the facts that it reaches these are:\n    # refused: proofs/double/Answers.antt loop-i-preserved"),
    ("an edit alone that names no fact", DOUBLE.replace("# refused: proofs/double/Answers.antt returns\n", ""), AT_DOUBLE, 1, "it names no fact; of those that it reaches these are refused:\n    # refused: proofs/double/Answers.antt returns"),
    ("two facts of an edit", BOTH, AT_DOUBLE + AT_HIGH, 0, "demo/tried: refused at proofs/double/Answers.antt returns, proofs/double/Answers.antt high"),
    ("two facts of an edit, in another order and with one more after them", BOTH, AT_HIGH + AT_DOUBLE + AT_LOW, 0, "1 refused"),
    ("two facts of an edit, and one is not refused", BOTH, AT_DOUBLE, 1, "proofs/double/Answers.antt high is not refused"),
    ("two facts of an edit, and another before one", BOTH, AT_DOUBLE + AT_LOW + AT_HIGH, 1, "proofs/double/Answers.antt high is refused after another fact of that place; the first is:\n    # refused: proofs/double/Answers.antt low"),
    ("two facts of an edit, and one does not say that it is false", BOTH, AT_DOUBLE + error("proofs/double/Answers.antt", "high", "no proof"), 1, "the error does not say that a fact does not hold"),
    ("two facts of two places", DOUBLE + "# refused: proofs/triple/Answers.antt returns\n", AT_DOUBLE + AT_TRIPLE, 1, "names facts of more than one place"),
    ("a fact named twice", DOUBLE + "# refused: proofs/double/Answers.antt returns\n", AT_DOUBLE, 1, "or one twice"),
    ("an edit of a group that reaches the second fact of another", group(one=BOTH, two=CONTRACT.replace("returns", "low")), AT_DOUBLE + AT_HIGH + AT_LOW, 1, "they can't share a check"),
    ("an edit alone that was proved", DOUBLE, None, 1, "did not refuse it"),
    ("an edit whose old text is not there", DOUBLE.replace("x + x", "x + y"), AT_DOUBLE, 1, "this text stands in src/lib.rt 0 times, and not once"),
    ("a group", group(one=DOUBLE, two=TRIPLE, three=LIMITED), AT_DOUBLE + AT_TRIPLE + AT_LIMITED, 0, "3 refused at the fact that they name, 0 not, in 1 checks"),
    ("a group, its errors in another order", group(one=DOUBLE, two=TRIPLE), AT_TRIPLE + AT_DOUBLE, 0, "2 refused"),
    ("an error that only follows", group(one=DOUBLE, two=TRIPLE), AT_DOUBLE + AT_TRIPLE + error("proofs/Laws.antt", "even", "`double_spec` was not admitted"), 0, "2 refused"),
    ("declarations that only follow", group(one=DOUBLE, two=TRIPLE), AT_DOUBLE + AT_TRIPLE + "./proofs/Laws.antt:4:5: error: 2 declarations that depend on `x`, which was not admitted, were not checked: even, other\n", 0, "2 refused"),
    ("a member that is not refused", group(one=DOUBLE, two=TRIPLE), AT_DOUBLE, 1, "demo/two: FAILED: proofs/triple/Answers.antt returns is not refused"),
    ("an error that no edit reaches", group(one=DOUBLE, two=TRIPLE), AT_DOUBLE + AT_TRIPLE + AT_LAW, 1, "an error that none of its edits reaches, at proofs/Laws.antt even"),
    ("a goal that no edit reaches", group(one=DOUBLE, two=TRIPLE), AT_DOUBLE + AT_TRIPLE + AT_LIMITED, 1, "an error that none of its edits reaches, at demo::limited returns"),
    ("a file that no longer fits, which no edit reaches", group(one=DOUBLE, two=TRIPLE), AT_DOUBLE + AT_TRIPLE + NO_NAME, 1, "an error that none of its edits reaches (a name is not there), at proofs/small/Answers.antt"),
    ("a wrong fact", group(one=DOUBLE, two=TRIPLE), AT_DOUBLE + error("proofs/triple/Answers.antt", "returns-2"), 1, "demo/two: FAILED: proofs/triple/Answers.antt returns is not refused; of the facts that it reaches these are:\n    # refused: proofs/triple/Answers.antt returns-2"),
    ("an error that tells of no false fact", group(one=DOUBLE, two=TRIPLE), AT_DOUBLE + error("proofs/triple/Answers.antt", "returns", "it is too long"), 1, "demo/two: FAILED: the error does not say that a fact does not hold"),
    ("a file that no longer fits", group(one=DOUBLE, two=TRIPLE), AT_DOUBLE + error("proofs/triple/Answers.antt", "returns", "`c` is not in scope"), 1, "demo/two: FAILED: it makes a file unfit (a name is not there)"),
    ("a file that no longer fits at another declaration", group(one=DOUBLE, two=TRIPLE), AT_DOUBLE + AT_TRIPLE + error("proofs/triple/Answers.antt", "inside", "record `Start` has no field `x`"), 1, "demo/two: FAILED: it makes a file unfit (a field is not there)"),
    ("a file that no longer fits, alone", DOUBLE, AT_DOUBLE + error("proofs/Laws.antt", "even", "`c` is not in scope"), 1, "it makes a file unfit"),
    ("the same, where the edit says so", "# unfit: proofs/Laws.antt\n" + DOUBLE, AT_DOUBLE + error("proofs/Laws.antt", "even", "`c` is not in scope"), 0, "1 refused"),
    ("an unfit place without an error", "# unfit: proofs/Laws.antt\n" + DOUBLE, AT_DOUBLE, 1, "it names proofs/Laws.antt unfit, and the log has no error there"),
    ("an unfit place in a group", group(one=DOUBLE, two="# unfit: proofs/Laws.antt\n" + TRIPLE), AT_DOUBLE + AT_TRIPLE, 1, "stays alone"),
    ("a loop whose measure is gone", group(one=DOUBLE, two=TRIPLE), AT_DOUBLE + AT_TRIPLE + "fn demo::triple: no proof: expected a measure in ./proofs/triple/Invariants.antt\n", 1, "demo/two: FAILED: it makes a file unfit (it stands in no declaration)"),
    ("a condition, at a goal that is false", group(one=BY_GOAL, two=TRIPLE), NO_NAME + AT_TRIPLE + goal("demo::small", "returns-then-x-lt49", more=IS_FALSE), 1, "demo/one: FAILED: it makes a file unfit (a name is not there)"),
    ("a condition, at a goal that has only no answer", group(one=BY_GOAL, two=TRIPLE), NO_NAME + AT_TRIPLE + goal("demo::small", "returns-then-x-lt49"), 1, "demo/one: FAILED: it makes a file unfit (a name is not there)"),
    ("a condition, by its name", group(one=BY_NAME, two=TRIPLE), AT_SMALL + AT_TRIPLE, 0, "2 refused"),
    ("a name of an edit of a definition", "# renamed: x-lt48 x-lt49\n" + LAW, AT_LAW, 1, "lies in the body of no one function"),
    ("a name of a function without a proof file", "# renamed: x-lt48 x-lt49\n" + LIMITED, AT_LIMITED, 1, "its function has no proof file"),
    ("two edits of one function", group(one=DOUBLE, two=DOUBLE.replace("old:     x + x", "old:     x")), AT_DOUBLE, 1, "this text stands in src/lib.rt"),
    ("two edits of one function, at two places", group(one=BY_NAME, two=BY_NAME.replace("x < 48", "return true").replace("x < 49", "return false")), AT_SMALL, 1, "they can't share a check"),
    ("an edit of a trait's function", group(one=FROM, two=TRIPLE), goal("demo::HeldFromOptionU64::from", "returns") + AT_TRIPLE, 0, "2 refused"),
    ("two edits of one label", "# edit: one\n" + DOUBLE + "\n# edit: one\n" + TRIPLE, AT_DOUBLE + AT_TRIPLE, 1, "another edit of the crate has this label"),
    ("an edit of a definition beside one that it does not reach", group(one=LAW, two=TRIPLE), AT_LAW + AT_TRIPLE, 0, "2 refused"),
    ("an edit of a definition, with an error at another place that it reaches", group(one=LAW, two=TRIPLE), AT_LAW + AT_TRIPLE + AT_DOUBLE, 0, "2 refused"),
    ("an edit of a definition, with an error where it does not reach", group(one=LAW, two=TRIPLE), AT_LAW + AT_TRIPLE + error("proofs/Other.antt", "odd"), 1, "an error that none of its edits reaches, at proofs/Other.antt odd"),
    ("an edit of a definition that a function's tactics open", group(one=LAW, two=TRIPLE), AT_LAW + AT_TRIPLE + goal("demo::opened", "returns"), 0, "2 refused"),
    ("an edit of a definition of a lemma that a function's tactics use", group(one=LAW, two=TRIPLE), AT_LAW + AT_TRIPLE + goal("demo::cited", "returns"), 0, "2 refused"),
    ("an edit of a definition that no tactics open", group(one=THIRD, two=DOUBLE), AT_THIRD + AT_DOUBLE + goal("demo::opened", "returns"), 1, "an error that none of its edits reaches, at demo::opened returns"),
    ("an edit of a definition beside one that it reaches", group(one=LAW, two=DOUBLE), AT_LAW + AT_DOUBLE, 1, "one reaches proofs/double/Answers.antt returns, which two names"),
    ("two edits of definitions, at two facts of one file", group(one=LAW, two=THIRD), AT_LAW + AT_THIRD + AT_SIXTH, 0, "2 refused"),
    ("two edits of definitions, the second one not refused", group(one=LAW, two=THIRD), AT_LAW, 1, "demo/two: FAILED: proofs/Laws.antt third is not refused"),
    ("two edits of definitions, at a fact that both reach", group(one=LAW, two=THIRD.replace("Laws.antt third", "Laws.antt sixth")), AT_LAW + AT_SIXTH, 1, "one reaches proofs/Laws.antt sixth, which two names"),
    ("two edits of definitions, a fact that both reach refused before", group(one=LAW, two=THIRD), AT_LAW + AT_SIXTH + AT_THIRD, 1, "demo/two: FAILED: proofs/Laws.antt third is refused after another fact of that place; the first is:\n    # refused: proofs/Laws.antt sixth"),
    ("two edits of definitions, only a fact that both reach refused", group(one=LAW, two=THIRD), AT_LAW + AT_SIXTH, 1, "demo/two: FAILED: proofs/Laws.antt third is not refused; of the facts that it reaches these are:\n    # refused: proofs/Laws.antt sixth"),
    ("an edit of a definition, with an error at a fact of that file that it does not reach", group(one=LAW, two=TRIPLE), AT_LAW + AT_TRIPLE + error("proofs/Laws.antt", "other"), 1, "an error that none of its edits reaches, at proofs/Laws.antt other"),
    ("an edit of a definition, at a fact inside a module, by another name", group(one=LAW, two=THIRD.replace("Laws.antt third", "Blocks.antt inner")), AT_LAW + error("proofs/Blocks.antt", "inner"), 0, "2 refused"),
    ("an edit of a definition, through a fact inside a module", group(one=LAW, two=THIRD.replace("Laws.antt third", "Blocks.antt outer")), AT_LAW + error("proofs/Blocks.antt", "outer"), 0, "2 refused"),
    ("an edit of a definition, by the header of a module", group(one=LAW.replace("Laws.antt even", "Blocks.antt given"), two=TRIPLE), error("proofs/Blocks.antt", "given") + AT_TRIPLE, 0, "2 refused"),
    ("an edit of a definition, with an error inside a module where it does not reach", group(one=LAW, two=TRIPLE), AT_LAW + AT_TRIPLE + error("proofs/Blocks.antt", "deep"), 1, "an error that none of its edits reaches, at proofs/Blocks.antt deep"),
    ("an edit of one of two constructors on a line", group(one=SIDE, two=LAW), AT_SIDE + AT_LAW, 0, "2 refused"),
    ("an edit of an import after a declaration", group(one=IMPORT, two=TRIPLE), error("proofs/Blocks.antt", "two") + AT_TRIPLE, 0, "2 refused"),
    ("an edit of a contract beside one of a caller", group(one=CONTRACT, two=LIMITED), AT_DOUBLE + AT_LIMITED, 1, "one reaches demo::limited returns, which two names"),
    ("an edit of a constant beside one of another function", group(one=CONSTANT, two=TRIPLE), AT_LIMITED + AT_TRIPLE, 0, "2 refused"),
    ("an edit that does not reach the place that it names", group(one=DOUBLE.replace("proofs/double/Answers.antt", "proofs/Laws.antt"), two=TRIPLE), AT_LAW + AT_TRIPLE, 1, "does not reach proofs/Laws.antt returns"),
    ("an edit of the code that does not say where it is wrong", DOUBLE.replace("# wrong: x = 2\n", ""), AT_DOUBLE, 1, "has no line '# wrong: INPUT'"),
    ("an edit of a definition needs no such line", LAW, AT_LAW, 0, "1 refused"),
    ("an edit of a proof", DOUBLE + "file: proofs/Laws.antt\nold: other = refl\nnew: other = tt\n", AT_DOUBLE, 1, "an edit is of src/ or specs/"),
    ("an edit of two functions", group(one=DOUBLE + "old:     x * 3\nnew:     x * 4\n", two=TRIPLE.replace("    x * 3\nnew:     x * 4", "x * 4\nnew: x * 5")), AT_DOUBLE + AT_TRIPLE, 1, "they can't share a check"),
]


# Files that the script cannot read well, and what it says of them.
UNREAD = [
    ("a module without declarations", {"proofs/Blocks.antt": "module _ (x : ℕ) where\npub outer : 1 ≡ 1\nouter = refl\n"}, "proofs/Blocks.antt has a module without declarations"),
    ("a header without its end", {"proofs/Blocks.antt": "module _ (x : ℕ)\n    (y : ℕ)\n"}, "or a header without its end"),
    ("names that are passed on", {"proofs/Blocks.antt": "pub use Rattle.demo.specs.Rules.{twice}\n", "proofs/More.antt": "use Rattle.demo.proofs.Blocks.{twice}\n"}, "proofs/More.antt imports from proofs/Blocks.antt, which passes on names"),
]

# What rt ci says of a file of edits: the first error, cut.
SHOWN = "rt: must-fail demo/tried.edit: refused, as it must be: "
AT_FACT = SHOWN + AT_DOUBLE
OF_GOAL = SHOWN + "note: src/lib.rt:{}:5: it is not proved that what the function ensures holds when it returns (`{}`); `search` gave up\n"

# An edit and what rt ci said, and whether .ci/edits takes that in place of a check.
SAID = [
    ("the named fact", DOUBLE, AT_FACT, True),
    ("the named fact, among other lines", DOUBLE, f"rt: demo proved\n{AT_FACT}rt: ok\n", True),
    ("nothing", DOUBLE, "rt: demo proved\n", False),
    ("another file of edits", DOUBLE, AT_FACT.replace("tried", "other"), False),
    ("another crate", DOUBLE, AT_FACT.replace("demo/", "other/"), False),
    ("an edit that is not refused", DOUBLE, AT_FACT.replace("refused, as it must be", "NOT REFUSED"), False),
    ("another fact", DOUBLE, SHOWN + error("proofs/double/Answers.antt", "high"), False),
    ("another place", DOUBLE, SHOWN + AT_TRIPLE, False),
    ("a fact that is not said to be false", DOUBLE, SHOWN + error("proofs/double/Answers.antt", "returns", "no"), False),
    ("a value of another type", DOUBLE, SHOWN + error("proofs/double/Answers.antt", "returns", "expected type `ℕ`, but this has type `Bool`"), False),
    ("a type in part", DOUBLE, SHOWN + error("proofs/double/Answers.antt", "returns", "expected type `x ≡ y`, but this has type `x ≡"), False),
    ("a goal of the function of that line", LIMITED, OF_GOAL.format(23, "returns"), True),
    ("a goal of another function", LIMITED, OF_GOAL.format(16, "returns"), False),
    ("a goal outside of all", LIMITED, OF_GOAL.format(1, "returns"), False),
    ("another goal of the function", LIMITED, OF_GOAL.format(23, "high"), False),
    ("one of two facts", BOTH, AT_FACT, False),
    ("an edit that changes names", BY_NAME, SHOWN + AT_SMALL, False),
    ("a group", group(tried=DOUBLE), AT_FACT, False),
]

# What stands for rt: it notes each check, proves the crate as it stands, where it is to, and says of a copy what the log has.
RT = """#!/bin/sh
case $1 in
version) cat "$TRIED/kit" ;;
check)
    if [ "$PWD" = "$TRIED/top/crates/demo" ]; then
        echo base >>"$TRIED/checks"
        [ ! -f "$TRIED/open" ] || { echo 'logic=not-proved'; exit 1; }
    else
        echo "$*" >>"$TRIED/checks"
        cat src/lib.rt proofs/small/Answers.antt ../../crates.txt >"$TRIED/seen"
        cat "$TRIED/log"
        ! grep -q not-proved "$TRIED/log"
    fi
    ;;
esac
"""


def write(path, text):
    os.makedirs(os.path.dirname(path), exist_ok=True)
    with open(path, "w", encoding="utf-8") as file:
        file.write(text)


class Tree:
    """A repository of one crate with a file of edits, in a folder of its own."""

    def __init__(self, room, edits, log, files=FILES):
        self.room, self.top = room, os.path.join(room, "top")
        os.makedirs(os.path.join(self.top, ".ci"))
        shutil.copy(os.path.join(TOP, ".ci", "edits"), os.path.join(self.top, ".ci", "edits"))
        write(os.path.join(self.top, "crates.txt"), "# a crate alone\ndemo:\n")
        for path, text in files.items():
            write(os.path.join(self.top, "crates", "demo", path), text)
        write(os.path.join(self.top, "crates", "demo", "must-fail", "tried.edit"), edits)
        self.say(log)
        write(os.path.join(room, "kit"), "one\n")
        write(os.path.join(room, "bin", "rt"), RT)
        os.chmod(os.path.join(room, "bin", "rt"), 0o755)

    def say(self, log):
        write(os.path.join(self.room, "log"), "logic=proved functions=3\n" if log is None else log + "logic=not-proved functions=3\n")

    def run(self, *words):
        found = dict(os.environ, TRIED=self.room, PATH=os.path.join(self.room, "bin") + os.pathsep + os.environ["PATH"])
        return subprocess.run((sys.executable, os.path.join(self.top, ".ci", "edits"), *words), capture_output=True, text=True, encoding="utf-8", env=found)

    def noted(self, name):
        path = os.path.join(self.room, name)
        if not os.path.isfile(path):
            return ""
        with open(path, encoding="utf-8") as file:
            return file.read()


def answers():
    """What .ci/edits answers for each file of edits and its log, beside what it has to."""
    cases = [(*case, FILES) for case in CASES]
    cases += [(name, group(one=DOUBLE, two=TRIPLE), AT_DOUBLE + AT_TRIPLE, 1, part, FILES | files) for name, files, part in UNREAD]
    for name, edits, log, status, part, files in cases:
        with tempfile.TemporaryDirectory() as room:
            answer = Tree(os.path.realpath(room), edits, log, files).run()
        fits = answer.returncode == status and part in answer.stdout
        yield name, fits, f"status {answer.returncode}, expected {status} and '{part}':\n{answer.stdout}{answer.stderr}"


def taken():
    """Whether .ci/edits takes what rt ci said in place of a check, beside whether it has to."""
    log = AT_DOUBLE + AT_LIMITED + AT_HIGH + AT_SMALL
    for name, edits, said, whole in SAID:
        with tempfile.TemporaryDirectory() as room:
            tree = Tree(os.path.realpath(room), edits, log)
            write(os.path.join(tree.room, "said"), said)
            answer = tree.run("--said", os.path.join(tree.room, "said"))
            checks = tree.noted("checks")
        fits = not checks and answer.returncode == 0 and "1 refused" in answer.stdout if whole else "base" in checks
        yield f"what rt ci said: {name}", fits, f"status {answer.returncode}, the checks:\n{checks}{answer.stdout}{answer.stderr}"
    with tempfile.TemporaryDirectory() as room:
        tree = Tree(os.path.realpath(room), DOUBLE, AT_DOUBLE)
        write(os.path.join(tree.room, "said"), "")
        for name in ("said", "none"):
            answer = tree.run("--said", os.path.join(tree.room, name))
            yield f"what rt ci said: {name} is empty, or not there", answer.returncode == 1, f"status {answer.returncode}:\n{answer.stdout}{answer.stderr}"


def steps():
    """What .ci/edits checks, and when: what came of each step, beside what has to."""
    with tempfile.TemporaryDirectory() as room:
        tree = Tree(os.path.realpath(room), group(one=BY_NAME, two=TRIPLE), AT_SMALL + AT_TRIPLE)
        one = "base\ncheck --jobs 1\n"

        def after(name, checks, status=0):
            answer = tree.run()
            fits = answer.returncode == status and tree.noted("checks") == checks
            return name, fits, f"status {answer.returncode}, the checks:\n{tree.noted('checks')}{answer.stdout}{answer.stderr}"

        yield after("the crate as it stands, then a copy with the edits", one)
        seen = tree.noted("seen")
        parts = ("if x < 49 {", "    x * 4\n", "returns-then-x-lt49 : goal.returns-then-x-lt49", "refl c.if-x-lt49.true (goal.at.returns-then-x-lt49-2 c) c.if-x-lt480.true", "demo:\n")
        yield "the copy has the edits, and the names that they change", all(part in seen for part in parts) and "x-lt48 " not in seen, seen
        yield after("the same once more", one)
        write(os.path.join(tree.top, "crates/demo/must-fail/tried.edit"), group(one=BY_NAME, two=TRIPLE).replace("x = 48", "x is 48"))
        yield after("after another comment", one)
        write(os.path.join(tree.room, "kit"), "two\n")
        yield after("with another kit", one * 2)
        write(os.path.join(tree.top, "crates/demo/proofs/Laws.antt"), FILES["proofs/Laws.antt"] + "\n")
        yield after("after another source", one * 3)
        write(os.path.join(tree.top, "crates/demo/must-fail/tried.edit"), group(one=BY_NAME, two=TRIPLE.replace("x * 4", "x * 5")))
        yield after("after another edit", one * 4)
        write(os.path.join(tree.top, "crates/demo/proofs/Laws.antt"), FILES["proofs/Laws.antt"])
        write(os.path.join(tree.room, "open"), "")
        yield after("a crate that is not proved as it stands", one * 4 + "base\n", 1)


def main():
    failed = tried = 0
    for name, fits, told in [*answers(), *taken(), *steps()]:
        tried += 1
        if not fits:
            failed += 1
            print(f"edits test: {name}: FAILED: {told}")
    print(f"edits test: {tried - failed} cases as they must be, {failed} not")
    return 1 if failed else 0


if __name__ == "__main__":
    sys.exit(main())
