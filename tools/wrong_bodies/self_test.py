"""The command, tried on a small repository that it makes: which edits it holds for refused, and which not."""
import collections
import os
import re
import resource
import subprocess
import sys
import tempfile

from . import libraries, record, sample, self_record, texts
from .kit import rtlib

COMMAND = f"{os.path.dirname(os.path.dirname(os.path.realpath(__file__)))}/wrong-bodies"

LOW = """// A library for the crate above.
#![tactic(auto)]

ghost use Rattle.std.specs.Prelude.{◌≡◌, ◌≤◌};
ghost use Rattle.low.specs.Sums.{twice};

/// Twice a number.
pub fn doubled(n: u8) -> u8
    requires { n ≤ 100 }
    ensures { result ≡ twice n }
{
    n + n
}
"""
SUMS = """-- Sums.
use Rattle.std.specs.Prelude.{ℕ, ◌+◌}

abbrev pub twice : ℕ → ℕ
twice n = n + n
"""
HIGH = """// Small functions to try wrong bodies on.
#![tactic(auto)]

ghost use Rattle.std.specs.Prelude.{◌≡◌, ◌≤◌, ◌+◌, ℕ};

use low::doubled;

// How far `stepped` goes.
const STEP: u8 = 2;

/// A number and the next one together.
pub fn with_next(n: u8) -> u8
    requires { n ≤ 50 }
    ensures { result ≡ n + n + 1 }
{
    doubled(n) + 1
}

/// Three times a number.
pub fn tripled(n: u8) -> u8
    requires { n ≤ 60 }
    ensures { result ≡ n + n + n }
{
    doubled(n) + n
}

/// Three times a number, and one.
pub fn tripled_and_one(n: u8) -> u8
    requires { n ≤ 40 }
    ensures { result ≡ n + n + n + 1 }
{
    tripled(n) + 1
}

/// The number two further on.
pub fn stepped(n: u8) -> u8
    requires { n ≤ 200 }
    ensures { result ≡ n + 2 }
{
    n + STEP
}

/// A number that is at least each of two.
pub fn greater(a: u8, b: u8) -> u8
    ensures first { a ≤ result }
    ensures second { b ≤ result }
{
    if a < b { b } else { a }
}

/// A number that is at most each of two.
pub fn lesser(a: u8, b: u8) -> u8
    ensures first { result ≤ a }
    ensures second { result ≤ b }
{
    if a < b { a } else { b }
}

/// Steps of one length.
pub trait Stepping {
    ghost far: { ℕ };

    ghost goes: { 1 ≤ far };

    ghost stays: { far ≤ 100 };

    /// The number one step further on.
    fn advanced(n: u8) -> u8
        requires { n ≤ 100 }
        ensures { result ≡ n + far };
}

/// Steps of two.
pub struct Twos;

impl Stepping for Twos {
    ghost use Rattle.std.proofs.Common.{arith};

    ghost far = { 2 };

    ghost goes = { omega arith };

    ghost stays = { omega arith };

    fn advanced(n: u8) -> u8 {
        n + 2
    }
}

/// How many elements the first half has.
pub fn half(values: &mut [u8]) -> usize {
    let count = values.len() / 2;
    count
}
"""
ANSWERS = """use Rattle.std.proofs.Common.{arith}
use Rattle.high.proofs.lesser.Goals as goal

pub returns-then-a-b-clause-second : goal.returns-then-a-b-clause-second
returns-then-a-b-clause-second c = omega arith
"""

# An edit by its pairs of an old and a new text and the callers that refuse it, the word that its row must have, and its mark.
Case = collections.namedtuple("Case", "pairs callers word mark", defaults=("",))
NEXT, GREATER, LESSER = "doubled(n) + 1", "if a < b { b } else { a }", "if a < b { a } else { b }"
ASKS_MORE = [("requires { n ≤ 60 }", "requires { n ≤ 30 }")]
NOWHERE = [("ghost far = { 2 }", "ghost far = { 0 }"), ("        n + 2", "        n + 0")]
CASES = {
    "meaning_turned": Case([(NEXT, "doubled(n)")], [], "refused"),
    "branches_exchanged": Case([(GREATER, "if a < b { a } else { b }")], [], "refused", "[false]"),
    "callee_asked_too_much": Case([("doubled(n) + n", "let _more = doubled(n + 60); doubled(n) + n")], [], "refused", "[requires]"),
    "two_functions_turned": Case([(NEXT, "doubled(n) + 2"), (GREATER, "a")], [], "refused"),
    "sum_in_another_order": Case([(NEXT, "1 + doubled(n)")], [], "not-refused"),
    "literal_written_otherwise": Case([("n + STEP", "n + 0x2")], [], "not-refused"),
    "one_of_two_functions_turned": Case([(NEXT, "doubled(n) + 2"), (GREATER, "if b > a { b } else { a }")], [], "partly"),
    "refused_in_a_caller_only": Case(ASKS_MORE, [], "elsewhere"),
    "refused_in_the_caller_named": Case(ASKS_MORE, ["tripled_and_one"], "refused", "[requires]"),
    "refused_in_another_caller": Case(ASKS_MORE, ["with_next"], "elsewhere"),
    "body_before_another_function": Case(
        [("ensures { result ≡ n + 2 }", "ensures { result ≡ n + 2 } { n + 0x2 } fn unasked(n: u8) -> u8")], [], "elsewhere"
    ),
    "law_refused_with_its_body_turned_too": Case(NOWHERE, ["Twos::goes"], "refused", "[answers]"),
    "law_that_still_holds": Case(NOWHERE, ["<Twos as Stepping>::stays"], "elsewhere"),
    "law_that_is_not_there": Case(NOWHERE, ["Twos::returns"], "bad-edit"),
    "constant_turned": Case([("STEP: u8 = 2", "STEP: u8 = 3")], ["stepped"], "refused", "[false]"),
    "caller_that_is_not_there": Case(ASKS_MORE, ["quadrupled"], "bad-edit"),
    "brace_lost": Case([(GREATER, "if a < b { b } else { a")], [], "not-source"),
    "clause_unreadable": Case([("ensures first { a ≤ result }", "ensures first { a ≤ outcome }")], [], "not-source"),
    "text_not_there": Case([("if a > b", "if a == b")], [], "bad-edit"),
    "text_there_twice": Case([("doubled(n)", "doubled(n) + 0")], [], "bad-edit"),
    "names_of_a_proof_taken": Case([(LESSER, "if b > a { a } else { b }")], [], "names-only"),
    "function_not_taken_on": Case(
        [("let count = values.len() / 2;", "let mut held = [values]; let lent = &mut held; let count = lent[0].len();")], [], "not-covered"
    ),
}


def write(path, text):
    """Writes a file, and the folders above it."""
    os.makedirs(os.path.dirname(path), exist_ok=True)
    with open(path, "w", encoding="utf-8") as it:
        it.write(text)


def make(root):
    """Makes the repository."""
    write(f"{root}/crates.txt", "low:\nhigh: low\n")
    write(f"{root}/crates/low/src/lib.rt", LOW)
    write(f"{root}/crates/low/specs/Sums.antt", SUMS)
    write(f"{root}/crates/low/specs/Lib.antt", "pub mod Sums\n")
    write(f"{root}/crates/high/src/lib.rt", HIGH)
    write(f"{root}/crates/high/proofs/lesser/Answers.antt", ANSWERS)
    for name, case in CASES.items():
        lines = ["file: src/lib.rt"]
        for old, new in case.pairs:
            lines += [f"old: {old}", f"new: {new}"]
        lines += [f"refused at: {it}" for it in case.callers]
        write(f"{root}/crates/high/wrong-bodies/{name}.edit", "\n".join(lines) + "\n")


def run(root, *words):
    """Runs the command in the repository, prints what it says, and returns its status and its lines."""
    how = {"cwd": root, "stdin": subprocess.DEVNULL, "stdout": subprocess.PIPE, "stderr": subprocess.STDOUT, "text": True}
    done = subprocess.run([sys.executable, COMMAND, *words], **how)
    lines = done.stdout.rstrip("\n").split("\n")
    print(*(f"    {it}" for it in lines), sep="\n", flush=True)
    return done.returncode, lines


def row_of(name, lines):
    """Returns an edit's row, or an empty text."""
    return next((it for it in lines if re.match(rf"\S+ +{name} ", it)), "")


def of_all(root):
    """Tries every case at once, and yields for each what is told and whether it is as it must be."""
    status, lines = run(root, "--jobs", "1", "--rows", f"{root}/rows")
    for name, case in CASES.items():
        row = row_of(name, lines)
        yield f"{name}: {case.word} {case.mark}".rstrip(), row.startswith(f"{case.word} ") and case.mark in row
    alone = {it for line in lines for it in re.findall(r"# high: check \d+ \((\w+)\):", line)}
    together = "callee_asked_too_much" not in alone and "literal_written_otherwise" in alone
    yield "of a batch with a good and a bad edit, only the bad one is tried alone", together
    refused = sum(it.word == "refused" for it in CASES.values())
    yield "the last line counts the refused and the others", lines[-1] == f"{refused} passed, {len(CASES) - refused} failed"
    yield "the status is 1 where an edit is not refused", status == 1
    with open(f"{root}/rows", encoding="utf-8") as it:
        counts = dict(line.split("\t", 1) for line in it.read().splitlines())
    yield "a row counts the edits of the crate", counts.get("high", "").startswith(f"{len(CASES)}\t")
    yield "a row tells of the library below", counts.get("low", "").startswith("0\t0\t")


def of_one(root):
    """Names one edit by its file: one that needs no check, since it cannot be applied."""
    status, lines = run(root, "crates/high/wrong-bodies/text_not_there.edit")
    holds = status == 1 and row_of("text_not_there", lines).startswith("bad-edit ") and lines[-1] == "0 passed, 1 failed"
    yield "an edit can be named by its file", holds and any("1 edit in 0 checks" in it for it in lines)


# Changes of one place, as what it is, the file below crates/, the old and the new text, and whether a verdict rests on it.
CHANGES = (
    ("its own text", "high/wrong-bodies/meaning_turned.edit", "new: doubled(n)", "new: doubled(n) + 2", True),
    ("a remark in it", "high/wrong-bodies/meaning_turned.edit", "file:", "what: it adds nothing\nfile:", False),
    ("its function", "high/src/lib.rt", NEXT, f"({NEXT})", True),
    ("a comment beside it", "high/src/lib.rt", "// How far", "// As far as", False),
    ("a proof beside it", "high/proofs/lesser/Answers.antt", "omega arith", "(omega arith)", True),
    ("the contract of what it calls", "low/src/lib.rt", "n ≤ 100", "n ≤ 101", True),
    ("a definition that this cites", "low/specs/Sums.antt", "twice n = n + n", "twice n = n + (n + 0)", True),
    ("a body below", "low/src/lib.rt", "    n + n\n", "    let sum = n + n;\n    sum\n", False),
    ("a comment below", "low/src/lib.rt", "Twice a number.", "Two times a number.", False),
    ("a comment in a definition", "low/specs/Sums.antt", "-- Sums.", "-- Sums of numbers.", False),
    ("a private function below", "low/src/lib.rt", "/// Twice", "fn unused() {}\n\n/// Twice", False),
)


def key_of(root, name):
    """Returns the key of an edit on the text that there is."""
    texts.forget()
    crate = next(it for it in rtlib.crates_below(root) if it.name == "high")
    return record.Keys().of(crate, f"{crate.folder}/wrong-bodies/{name}.edit")


def of_keys(root):
    """Changes one place after another, and asks whether the edit is still the one on record."""
    first = key_of(root, "meaning_turned")
    for what, file, old, new, is_tried in CHANGES:
        path = f"{root}/crates/{file}"
        text = rtlib.text_of(path)
        write(path, text.replace(old, new, 1))
        is_other = key_of(root, "meaning_turned") != first
        yield f"after a change of {what} an edit is {'tried again' if is_tried else 'still on record'}", old in text and is_other == is_tried
        write(path, text)
    yield "the key of an edit tells edits apart", first not in (None, key_of(root, "two_functions_turned"))


def of_record(root):
    """Puts two cases on record, and tries them again."""
    paths = [f"crates/high/wrong-bodies/{it}.edit" for it in ("meaning_turned", "text_not_there")]
    high = next(it for it in rtlib.crates_below(root) if it.name == "high")
    yield "a missing file is an empty record", record.read(high) == {}
    run(root, "--record", "--jobs", "1", *paths)
    yield "what was refused is put on record, and nothing else", [*record.read(high)] == ["meaning_turned"]
    status, lines = run(root, *paths)
    told = [it for it in lines if it.startswith("refused ")]
    yield "what is on record is not tried again", len(told) == 1 and "meaning_turned" in told[0] and " on record: " in told[0]
    yield "what is not is", status == 1 and lines[-1] == "1 passed, 1 failed"
    write(f"{root}/crates/low/src/lib.rt", LOW.replace("n ≤ 100", "n ≤ 101"))
    _, lines = run(root, "--jobs", "1", paths[0])
    yield "once a contract below has changed, it is tried", lines[-1] == "1 passed, 0 failed" and not any(" on record: " in it for it in lines)
    write(f"{root}/crates/low/src/lib.rt", LOW)


def of_forged(root):
    """Forges a line of the record, and tries the sample: all that is on record, where that is little."""
    high = next(it for it in rtlib.crates_below(root) if it.name == "high")
    forged, held = "sum_in_another_order", {}
    for name in os.listdir(f"{high.folder}/wrong-bodies"):
        path = f"{high.folder}/wrong-bodies/{name}"
        if name not in (f"{forged}.edit", "meaning_turned.edit", "branches_exchanged.edit", record.FILE):
            held[path] = rtlib.text_of(path)
            os.remove(path)
    lines_of_record = {it: record.Line(key_of(root, it), "with_next", "forged") for it in (forged, "meaning_turned")}
    record.write(high, lines_of_record)
    status, lines = run(root, "--jobs", "1")
    yield "the sample is named", any("2 edits of the 2 on record" in it and f"high/{forged}" in it for it in lines)
    yield "a forged line in the sample fails the run", status == 1 and row_of(forged, lines).startswith("not-refused ")
    yield "then the whole crate is tried", any("is on record and is not refused" in it for it in lines)
    for path, text in held.items():
        write(path, text)
    os.remove(record.file_of(high))


def of_samples():
    """Chooses among many names."""
    names = [f"crate/edit_{it}" for it in range(1000)]
    one, other = sample.chosen(names, "a"), sample.chosen(names, "b")
    yield "a sample has 3 in 100", len(one) == 30 and {*one} <= {*names}
    yield "the same commit chooses the same, and another others", one == sample.chosen(names[::-1], "a") and one != other
    yield "a sample has at least 20, and at most all", len(sample.chosen(names[:100], "a")) == 20 and len(sample.chosen(names[:7], "a")) == 7


def mark(root):
    """Builds the two libraries, and marks them as the gate does after rt ci."""
    crates = rtlib.crates_below(root)
    for it in crates:
        with open(os.devnull, "w", encoding="utf-8") as it.out:
            it.build_rlib(["--jobs", "1"], anew=False)
        # (rt ci leaves none)
        os.remove(f"{os.path.dirname(it.rlib)}/stamp")
    names = re.findall(r"fn (\w+)\(", HIGH)
    libraries.mark(crates, {it.name: it.stamp() for it in crates}, "1", {"high": [f"high::{it}" for it in names]})


def of_marked(root):
    """Tries some cases in crates that are known to be proved as they stand."""
    mark(root)
    cases = {it: CASES[it] for it in ("meaning_turned", "callee_asked_too_much", "branches_exchanged", "constant_turned", "sum_in_another_order")}
    _, lines = run(root, "--all", "--jobs", "1", *(f"crates/high/wrong-bodies/{it}.edit" for it in cases))
    for name, case in cases.items():
        yield f"where the crate is known to be proved, {name}: {case.word}", row_of(name, lines).startswith(f"{case.word} ")
    labels = re.findall(r"# high: check \d+ \((\w+)", "\n".join(lines))
    first = labels.index("unedited") if "unedited" in labels else 0
    yield "it is checked as it stands only for what is not refused", labels[first:] == ["unedited", "sum_in_another_order"]
    yield "the edits of other functions are tried together there too", labels[:first].count("batch_1") == 1


def main(is_asked=True, is_recorded=False):
    """Runs the self test, unless it passed on just these files and is not asked for all the same, and returns its exit status."""
    if not is_asked and not is_recorded and self_record.is_recorded():
        print(f"the self test passed on just these files of tools/, with this kit: {self_record.sum_of_tools()}")
        print("0 passed, 0 failed")
        return 0
    counts = collections.Counter()
    with tempfile.TemporaryDirectory(prefix="wrong-bodies-self-test-") as root:
        make(root)
        told = [*of_samples(), *of_keys(root), *of_all(root), *of_one(root), *of_record(root), *of_forged(root), *of_marked(root)]
        with open(f"{root}/crates/high/src/lib.rt", encoding="utf-8") as it:
            told.append(("the crate's own text is as it was", it.read() == HIGH))
    for text, holds in told:
        counts[holds] += 1
        print(f"{'ok    ' if holds else 'FAILED'}  {text}")
    used = resource.getrusage(resource.RUSAGE_CHILDREN)
    print(f"the self test took {used.ru_utime + used.ru_stime:.0f} processor seconds")
    if is_recorded and not counts[False]:
        self_record.write()
    print(f"{counts[True]} passed, {counts[False]} failed")
    return 1 if counts[False] else 0
