"""The command line of `tools/wrong-bodies`."""
import argparse
import os
import shutil
import signal
import sys
import tempfile

from . import listing, record
from .kit import rtlib
from .run import Run
from .verdicts import MEANING

FOLDER = "wrong-bodies"
# The repository that these files are of, for where the command is called from outside any.
OWN_ROOT = os.path.dirname(os.path.dirname(os.path.dirname(os.path.realpath(__file__))))
USAGE = f"""
Tries the edits crates/NAME/{FOLDER}/*.edit, of each crate that has that folder, or of the crates named, or the edit files
named. An edit has lines 'file: src/x.rt', 'old: TEXT' (standing once in that file) and 'new: TEXT'; further pairs apply to
what the earlier ones made. The prover must refuse it at a goal of each function that it changes. A line 'refused at: NAME'
(a function's name, or Type::name, module::name; there may be several) says that it is refused in that function instead, as
an edit of a constant or of a ghost member is. Where no function has the name, it is that of a ghost member of an impl, such
as a law, at whose value the edit is refused.

Edits of different functions are checked together, on a copy of the crate. What is not plainly refused so is tried alone, and
so is an edit of more than bodies. Each edit has a row: a word, its name, the functions that it changes, and the first goal.
First the crate is checked as it stands. Where tools/gate has marked it as proved, only the functions that have to refuse are
checked, with what they call, and the crate as it stands only if an edit is not refused so.

Refusals are on record, in crates/NAME/{FOLDER}/{record.FILE}, under a key: a checksum of all that a verdict rests on. An edit whose
key is still the one on record is not tried again, and its row says 'on record'. But where no names are given, a sample of those is
tried all the same, 3 in 100 and at least 20, which the hash of the commit chooses; where one of them is not refused, all edits of
its crate are tried. With --all every edit is tried. With --record what was seen refused is put on record; nothing else writes it.
{MEANING}
A refusal may have marks: [requires] only what a callee asks failed, [gave up] the search met a limit at each goal, [false]
values are known at which a goal is false, [answers] only answers that a proof file, or the value of a ghost member, gives failed.

The last line is 'N passed, M failed': an edit passes where it is refused. The exit status is 1 where one failed."""


def parsed(words):
    """Returns what the command line asks for."""
    how = {"usage": "tools/wrong-bodies [CRATE | EDIT_FILE ..] [flags]", "formatter_class": argparse.RawDescriptionHelpFormatter}
    parser = argparse.ArgumentParser(description=USAGE, **how)
    parser.add_argument("names", nargs="*", metavar="CRATE | EDIT_FILE", help="what to try (every crate that has edits)")
    parser.add_argument("--jobs", type=int, metavar="N", help="use at most N processors (as many as there are, with 4 GB of memory each)")
    parser.add_argument("--all", action="store_true", help="try all, also what is on record")
    parser.add_argument("--record", action="store_true", help="put on record what is seen refused, and try no sample")
    parser.add_argument("--list", action="store_true", help="print what each edit does, and try none")
    parser.add_argument("--alone", action="store_true", help="check each edit by itself")
    parser.add_argument("--fresh", action="store_true", help="take nothing of what rt check kept of the crate")
    parser.add_argument("--keep", metavar="DIR", help="keep what each check printed, in DIR/CRATE")
    parser.add_argument("--rows", metavar="FILE", help="append a line for each crate: its name, edits, checks and processor seconds, with tabs between")
    parser.add_argument("--self-test", action="store_true", help="try the command on a small repository that it makes, unless it passed on just these files of tools/; with --all in any case, and with --record note that it passed")
    return parser.parse_args(words)


def stop(why):
    """Ends the command with a message, where it cannot do what it is asked."""
    print(f"wrong-bodies: {why}", file=sys.stderr)
    sys.exit(2)


def main(words):
    """Runs the command and returns its exit status."""
    given = parsed(words)
    if given.self_test:
        from . import self_test

        return self_test.main(given.all, given.record)
    rtlib.guarded()
    root = rtlib.root_above(os.getcwd())
    if not root or not os.path.isfile(f"{root}/{rtlib.LIST}"):
        root = OWN_ROOT
    crates = rtlib.crates_below(root)
    if given.list:
        print(*listing.lines([it for it in crates if not given.names or it.name in given.names]), sep="\n")
        return 0
    asked = asked_for(given.names, crates)
    with tempfile.TemporaryDirectory(prefix="wrong-bodies-") as room:
        remove_when_stopped(room)
        run = Run(given, room)
        run.all_of(asked, root)
    print(*run.last_lines(), sep="\n")
    return 1 if run.failed else 0


def remove_when_stopped(room):
    """Has the command leave nothing in its room where it is interrupted. What it started ends with it."""

    def leave(number, _):
        shutil.rmtree(room, ignore_errors=True)
        os._exit(128 + number)

    for it in (signal.SIGINT, signal.SIGTERM, signal.SIGHUP):
        signal.signal(it, leave)


def asked_for(names, crates):
    """Returns the crates to try, each with the paths of its edits."""
    by_name, asked = {it.name: it for it in crates}, {}
    names = names or [it.name for it in crates if os.path.isdir(f"{it.folder}/{FOLDER}")]
    if not names:
        stop(f"no crate has a folder {FOLDER}")
    for name in names:
        if name in by_name:
            asked.setdefault(by_name[name], []).extend(edits_in(f"{by_name[name].folder}/{FOLDER}"))
            continue
        path = os.path.realpath(name)
        crate = next((it for it in crates if path.startswith(f"{os.path.realpath(it.folder)}/")), None)
        if not crate or not os.path.isfile(path):
            stop(f"{name} is no crate of crates.txt, and no edit file in a crate's folder")
        asked.setdefault(crate, []).append(path)
    return {crate: list(dict.fromkeys(paths)) for crate, paths in asked.items()}


def edits_in(folder):
    """Returns the paths of a folder's edits. The record is none, and a file ending in .md is only there to be read."""
    if not os.path.isdir(folder):
        stop(f"there is no folder {folder}")
    return [f"{folder}/{name}" for name in sorted(os.listdir(folder)) if name != record.FILE and not name.endswith(".md")]
