"""The command line of `tools/gate`."""
import argparse
import os
import signal
import sys
import tempfile
import time

from wrong_bodies import libraries
from wrong_bodies.kit import rtlib

from . import table
from .parts import Part, run_together

ROOT = os.path.dirname(os.path.dirname(os.path.dirname(os.path.realpath(__file__))))
TABLE = "out/gate-table.md"
USAGE = f"""
The repository's test command. It runs, at the top of the repository,

  rt ci                           every crate proved from nothing, its tests, and its programs as two compilers build them
  tools/memory                    each request of four programs for memory refused in turn
  tools/explained                 the program tealmuze on what the Rust crate answered, on hostile proofs and on bad files
  tools/bindings                  the static library built, and called from C, Python and Rust
  tools/misuse                    wrong programs that must not compile: they let go of what must be spent
  tools/constants                 that the constants of Poseidon2 are those of their generator
  tools/links                     that each relative link of each page leads somewhere
  tools/words                     that no text has a word that the table of words says not to use
  tools/pages                     that what pages say of the code is what it writes of it, and that names and numbers are there
  tools/guide                     GUIDE's recipe in an empty folder, from its commands to a proved clause, and the code on its page
  tools/self-test                 that those of these which decide pass what is right and fail what is wrong
  tools/wrong-bodies --self-test  that the next command holds the right edits for refused, where tools/ changed since that passed
  tools/wrong-bodies              wrong bodies, which the prover must refuse: those whose refusal is not on record as the text is
                                  now, and a sample of the others

The first and the last take all processors, and those between run beside one another; each runs also where one before it
failed. It prints what each part and each crate took, and writes that to {TABLE}. The last line is 'N passed, M failed',
the counts of the parts added; a part that gives no count is a failure, and what --without leaves out the last line says.
The exit status is 1 where anything failed. It changes no file that git knows. Libraries that rt check built are built again
when they are next needed."""


def main(words):
    """Runs the gate and returns its exit status."""
    how = {"usage": "tools/gate [--only-wrong-bodies] [--without cargo] [--without cc]", "formatter_class": argparse.RawDescriptionHelpFormatter}
    parser = argparse.ArgumentParser(description=USAGE, **how)
    parser.add_argument("--only-wrong-bodies", action="store_true", help="leave out all parts but the last")
    parser.add_argument("--without", action="append", choices=["cargo", "cc"], default=[], help="leave out what wants this command")
    given = parser.parse_args(words)
    without = [word for it in given.without for word in ("--without", it)]
    signal.signal(signal.SIGTERM, lambda number, _: sys.exit(128 + number))
    with tempfile.TemporaryDirectory(prefix="gate-") as room:
        bodies = Part("tools/wrong-bodies", [f"{ROOT}/tools/wrong-bodies", "--rows", f"{room}/rows"])
        parts = [bodies]
        if not given.only_wrong_bodies:
            proofs = Part("rt ci", [f"{ROOT}/tools/rt", "ci"], is_watched=True)
            run_marked(proofs)
            others = [
                Part("tools/memory", [f"{ROOT}/tools/memory"]),
                Part("tools/explained", [f"{ROOT}/tools/explained"]),
                Part("tools/bindings", [f"{ROOT}/tools/bindings", *without]),
                Part("tools/misuse", [f"{ROOT}/tools/misuse"]),
                Part("tools/constants", [f"{ROOT}/tools/constants"]),
                Part("tools/links", [f"{ROOT}/tools/links"]),
                Part("tools/words", [f"{ROOT}/tools/words"]),
                Part("tools/pages", [f"{ROOT}/tools/pages"]),
                Part("tools/guide", [f"{ROOT}/tools/guide"]),
                Part("tools/self-test", [f"{ROOT}/tools/self-test"]),
                Part("tools/wrong-bodies --self-test", [f"{ROOT}/tools/wrong-bodies", "--self-test"]),
            ]
            run_together(others, ROOT)
            parts = [proofs, *others, bodies]
        bodies.run(ROOT)
        rows = rtlib.text_of(f"{room}/rows") or ""
    report(parts, rows)
    failed = sum(it.failed for it in parts)
    left_out = f"; left out: {', '.join(sorted(set(given.without)))}" if given.without else ""
    print(f"{sum(it.passed for it in parts)} passed, {failed} failed{left_out}")
    return 1 if failed else 0


def run_marked(proofs):
    """Runs rt ci, so that the libraries that it builds stay for the wrong bodies, marked with the text that they are of."""
    try:
        crates = [it for it in rtlib.crates_below(ROOT) if it.makes_rlib()]
    except SystemExit:
        # (rt ci says the same)
        crates = []
    held = rtlib.lock(crates)
    libraries.clear(crates)
    stamps = {it.name: it.stamp() for it in crates}
    for it in held:
        os.close(it)
    proofs.run(ROOT)
    libraries.mark(crates, stamps, f"{time.time_ns()}", table.names_in(proofs.lines))


def report(parts, rows):
    """Prints what the parts and the crates took, and writes it to the table's file."""
    seconds, functions = {}, {}
    for part in parts:
        if part.name == "rt ci":
            seconds, functions = dict(part.seconds), table.functions_in(part.lines)
    for crate, more in table.seconds_of_rows(rows).items():
        seconds[crate, "edits"] = seconds.get((crate, "edits"), 0.0) + more
    text = table.written(table.rows(names_of_crates(), functions, seconds))
    text = "Processor minutes of one run of the gate.\n\n" + text + "\n" + "".join(f"- {it.told()}\n" for it in parts)
    os.makedirs(os.path.dirname(f"{ROOT}/{TABLE}"), exist_ok=True)
    with open(f"{ROOT}/{TABLE}", "w", encoding="utf-8") as it:
        it.write(text)
    print(f"\n{text}")


def names_of_crates():
    """Returns the names of the crates, in the order of crates.txt."""
    lines = [it.partition("#")[0] for it in (rtlib.text_of(f"{ROOT}/{rtlib.LIST}") or "").split("\n")]
    return [it.partition(":")[0].split()[0] for it in lines if it.strip()]
