#!/usr/bin/env python3
"""Tests .ci/lint on a copy of the sources: each change below has to be refused, with its file and its words."""

import os
import shutil
import subprocess
import sys
import tempfile

TOP = os.path.realpath(os.path.join(os.path.dirname(os.path.realpath(__file__)), ".."))

PAIRS = "crates/text/proofs/Pairs.antt"
OTHER = "crates/text/proofs/WholeFile.antt"
MITER = "crates/checking/proofs/lemmas/miter/Laws.antt"
GATE = "crates/circuit/src/gate.rt"
STEP = "crates/checking/src/step.rt"
BITS = "crates/bits/src/lib.rt"
FILES = "crates/text/src/lib.rt"
MATCH = "crates/checking/specs/Match.antt"
READING = "docs/READING.md"


def unfolds(name, crate="circuit"):
    return f"it unfolds {name}, a definition of {crate}"


def law(line):
    """A law with a line under its signature."""
    return f"\nsample : ⊤\n{line}\nsample = tt\n"


# Each change: the texts appended, by file; then the file and the words that have to be told.
CASES = {
    "unfolded by name": ({PAIRS: "\nuse Rattle.circuit.specs.Run.{run_outcome}\n" + law("unfolding run_outcome")}, PAIRS, unfolds("run_outcome")),
    "unfolded by the module": ({PAIRS: "\nuse Rattle.circuit.specs.Words as w\n" + law("unfolding w.all_valid")}, PAIRS, unfolds("w.all_valid")),
    "unfolded by the folder": ({PAIRS: "\nuse Rattle.circuit.specs as c\n" + law("unfolding c.Words.all_valid")}, PAIRS, unfolds("c.Words.all_valid")),
    "unfolded by the path": ({PAIRS: law("unfolding Rattle.circuit.specs.Words.all_valid")}, PAIRS, unfolds("Rattle.circuit.specs.Words.all_valid")),
    "unfolded in a term": ({PAIRS: "\nsample : ⊤\nsample = unfold Rattle.circuit.specs.Words.all_valid in tt\n"}, PAIRS, unfolds("Rattle.circuit.specs.Words.all_valid")),
    "unfolded on a second line": ({PAIRS: "\nuse Rattle.circuit.specs.Run.{run_outcome}\n" + law("unfolding pick\n    run_outcome")}, PAIRS, unfolds("run_outcome")),
    "passed on by a file": (
        {PAIRS: "\npub use Rattle.circuit.specs.Run.{run_outcome}\n", OTHER: "\nuse Rattle.text.proofs.Pairs.{run_outcome}\n" + law("unfolding run_outcome")},
        OTHER,
        unfolds("run_outcome"),
    ),
    "a run as a fold": ({PAIRS: "\nuse Rattle.circuit.specs.Run.{run}\n" + law("unfolding fold")}, PAIRS, unfolds("fold")),
    "a run of another name as a fold": ({PAIRS: "\nuse Rattle.circuit.specs.Run.{run as r}\n" + law("unfolding fold")}, PAIRS, unfolds("fold")),
    "of checking": ({PAIRS: "\nuse Rattle.checking.specs.Match.{may_pass}\n" + law("unfolding may_pass")}, PAIRS, unfolds("may_pass", "checking")),
    "in checking": ({MITER: "\nuse Rattle.circuit.specs.Run.{run_outcome}\n" + law("unfolding run_outcome")}, MITER, unfolds("run_outcome")),
    "a private lemma": ({PAIRS: "\nuse Rattle.circuit.proofs.lemmas.gate.Valid.{valid_facts}\n"}, PAIRS, "which circuit does not promise"),
    "all proofs": ({PAIRS: "\nuse Rattle.circuit.proofs as d\n"}, PAIRS, "which circuit does not promise"),
    "a whole crate": ({PAIRS: "\nuse Rattle.circuit as d\n"}, PAIRS, "which circuit does not promise"),
    "all crates": ({PAIRS: "\nuse Rattle as d\n"}, PAIRS, "it imports every crate"),
    "unfolded by an attribute": (
        {FILES: "\n#[tactic(auto, unfolding(circuit::specs::Words::all_valid))]\nfn sample() {}\n"},
        FILES,
        "its tactics open circuit::specs::Words::all_valid, which circuit does not promise",
    ),
    "a private lemma by an attribute": (
        {FILES: "\n#[tactic(auto, using(circuit::proofs::Promises::run_none, circuit::proofs::lemmas::run::Laws::run_one))]\nfn sample() {}\n"},
        FILES,
        "its tactics open circuit::proofs::lemmas::run::Laws::run_one, which circuit does not promise",
    ),
    "a hole": ({PAIRS: "\nsample : ⊤\nsample = ?\n"}, PAIRS, "a hole"),
    "an open function with a requires": (
        {GATE: "\npub fn lowest_line(mask: u64) -> u64\n    requires { 0 < mask }\n    ensures { result ≡ mask }\n{\n    mask\n}\n"},
        GATE,
        "the open function lowest_line has a requires",
    ),
    "an open function with two of them, named": (
        {GATE: "\npub fn lowest_line(mask: u64) -> u64\n    requires some { 0 < mask }\n    requires few { mask < 8 }\n    ensures { result ≡ mask }\n{\n    mask\n}\n"},
        GATE,
        "the open function lowest_line has a requires",
    ),
    "an open function of the crate below all with a requires": (
        {BITS: "\npub fn first(items: &[u64]) -> u64\n    requires { 0 < length items.now }\n    ensures { result ≡ result }\n{\n    items[0]\n}\n"},
        BITS,
        "the open function first has a requires",
    ),
    "an open function behind a text of two lines": (
        {GATE: '\nconst WORDS: [u8; 4] = *b"ab\\\n    cd";\n\npub fn lowest_line(mask: u64) -> u64\n    requires { 0 < mask }\n    ensures { result ≡ mask }\n{\n    mask\n}\n\nconst MORE: [u8; 1] = *b"e";\n'},
        GATE,
        "the open function lowest_line has a requires",
    ),
    "an open function without an ensures": ({GATE: "\npub fn lowest_line(mask: u64) -> u64 {\n    mask\n}\n"}, GATE, "the open function lowest_line has no ensures"),
    "an open function that README does not name": (
        {GATE: "\npub fn lowest_line(mask: u64) -> u64\n    ensures { result ≡ mask }\n{\n    mask\n}\n"},
        GATE,
        "README.md does not name the open function lowest_line",
    ),
    "a definition that READING does not name, in a second clause": (
        {GATE: "\nghost use Rattle.circuit.specs.Gate.{lowest_of};\n\npub fn lowest_line(mask: u64) -> u64\n    ensures one { result ≡ mask }\n    ensures two { result ≡ lowest_of mask }\n{\n    mask\n}\n"},
        GATE,
        "docs/READING.md does not name lowest_of, which lowest_line cites",
    ),
    "a private definition in an open contract": (
        {STEP: "\nghost use Rattle.checking.specs.private.Narrowing.{kept};\n\npub fn sample(mask: u64) -> u64\n    ensures { result ≡ kept mask }\n{\n    mask\n}\n"},
        STEP,
        "the open function sample cites kept of specs/private/",
    ),
    "what is private in a statement": (
        {MATCH: "\nuse Rattle.checking.specs.private.Narrowing.{kept}\n"},
        MATCH,
        "it imports what only private contracts cite",
    ),
    "an edit that is not there": ({READING: "\n| A row | `may_pass` (Match) | checking/not_there |\n"}, READING, "there is no edit checking/not_there"),
    "a name that is not there": ({READING: "\n| A row | `may_not_pass` (Match) | |\n"}, READING, "may_not_pass is not there"),
}


def copy(to):
    for name in (".ci", "crates", "docs"):
        shutil.copytree(os.path.join(TOP, name), os.path.join(to, name), ignore=shutil.ignore_patterns("out"))
    for name in ("README.md", "crates.txt"):
        shutil.copy(os.path.join(TOP, name), to)


def lint(top):
    return subprocess.run([sys.executable, os.path.join(top, ".ci/lint")], capture_output=True, text=True, encoding="utf-8")


def told(top, changes):
    """What lint says of the sources with the changes; they are as before afterwards."""
    before = {}
    for path, text in changes.items():
        with open(os.path.join(top, path), "r+", encoding="utf-8") as file:
            before[path] = file.read()
            file.write(text)
    result = lint(top)
    for path, text in before.items():
        with open(os.path.join(top, path), "w", encoding="utf-8") as file:
            file.write(text)
    return result


def main():
    wrong = 0
    with tempfile.TemporaryDirectory() as top:
        copy(top)
        plain = lint(top)
        if plain.returncode != 0:
            print(f"lint test: the sources as they are: {plain.stdout}{plain.stderr}")
            return 1
        for name, (changes, path, words) in CASES.items():
            result = told(top, changes)
            if result.returncode != 1 or not any(line.startswith(f"lint: {path}:") and line.endswith(words) for line in result.stdout.splitlines()):
                wrong += 1
                print(f"lint test: {name}: status {result.returncode}, where {path} has to be told: {words}\n{result.stdout}{result.stderr}")
    print(f"lint test: {len(CASES)} changes, {wrong} let through")
    return 1 if wrong else 0


if __name__ == "__main__":
    sys.exit(main())
