"""The libraries that a crate stands on, which have to be built before it can be checked.

There are two kinds. `rt check` builds a library with its proofs, and leaves a stamp beside it. `rt ci` builds each from
nothing with its statements alone, and leaves no stamp; `tools/gate`, which runs it, then leaves a mark of its own.
Libraries of one run of `rt ci` fit one another, and no others. Only a proved crate is built: so where the mark is of the
text that a crate has now, it is proved as it stands, and the mark has the names of its functions.
"""
import os
import shutil

from .check import ran_again_if_killed
from .kit import rtlib

MARK = "mark-of-the-gate"


def mark_of(crate):
    """Returns the file beside a built library that says which text it is of, and which run of rt ci made it."""
    return f"{os.path.dirname(crate.rlib)}/{MARK}"


def clear(crates):
    """Removes what was built, so that what rt ci builds next stays in its place."""
    for it in crates:
        shutil.rmtree(os.path.dirname(it.rlib), ignore_errors=True)


def mark(crates, stamps, run, names):
    """Marks the libraries that a run of rt ci built, of the text with these stamps. The names of functions are by crate."""
    for it in crates:
        if os.path.isdir(it.rlib) and not it.is_built() and it.stamp() == stamps[it.name]:
            with open(mark_of(it), "w", encoding="utf-8") as file:
                file.write("".join(f"{line}\n" for line in [run, stamps[it.name], *names.get(it.name, [])]))


def marked(crate):
    """Returns the run of rt ci that built the crate of the text that it has now, and the names of its functions, or None."""
    lines = (rtlib.text_of(mark_of(crate)) or "").split()
    if len(lines) < 2 or not os.path.isdir(crate.rlib) or lines[1] != crate.stamp():
        return None
    return lines[0], lines[2:]


def are_of_one_run(libraries):
    """Returns whether one run of rt ci built all of these, of the text that they have now."""
    found = [marked(it) for it in libraries]
    return all(found) and len({run for run, _ in found}) <= 1


def names_where_proved(crate):
    """Returns the names of the functions of a crate that a run of rt ci proved as it stands, and none of any other crate."""
    return marked(crate)[1] if are_of_one_run([*crate.below(), crate]) else []


def missing(libraries):
    """Returns which of these have to be built."""
    return [] if are_of_one_run(libraries) else [it for it in libraries if not it.is_built()]


class Builds:
    """What the building of libraries took and said, by the crate's name."""

    def __init__(self, say):
        self.say, self.seconds, self.failed = say, {}, {}

    def build(self, crate, jobs):
        """Builds a library as rt check does, over the work that it keeps, unless one below it failed."""
        self.seconds[crate.name] = 0.0
        below = [it.name for it in crate.below() if it.name in self.failed]
        if below:
            self.failed[crate.name] = f"its library {below[0]} is not built"
            return
        crate.call = lambda *words: self.called(crate, [*words])
        status = crate.build_rlib(["--jobs", str(jobs)], anew=False)
        self.say(f"{crate.name}: built as a library: {self.seconds[crate.name]:.1f} s")
        if status:
            self.failed.setdefault(crate.name, "it does not build as a library: rt check says why")

    def called(self, crate, words):
        """Runs one of rt's commands for the crate."""
        done = ran_again_if_killed(words, crate.folder)
        self.seconds[crate.name] += done.seconds
        return done.status
