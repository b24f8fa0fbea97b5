"""One run of the command: crates side by side, their rows and the count."""
import os
import shutil
import subprocess
import threading

from . import lanes, libraries, record, sample, texts
from .check import Workshop
from .edits import Edit
from .kit import rtlib
from .trials import Trials
from .verdicts import REFUSED, Verdict


class Run:
    """One run of the command: the crates that it tries, side by side, and what it counts."""

    def __init__(self, given, room):
        self.given, self.room = given, room
        self.printing = threading.Lock()
        self.builds = libraries.Builds(self.say)
        self.passed, self.on_record, self.failed = 0, 0, []
        self.keys = record.Keys()
        # By crate, the lines of its record; by crate and path of an edit, its key as the run began, and the line of one that is not tried.
        self.records, self.begun, self.told = {}, {}, {}
        # The edits on record that are tried all the same, as pairs of a crate and a path.
        self.sample = set()

    def say(self, text):
        """Prints a line of progress."""
        with self.printing:
            print(f"# {text}", flush=True)

    def all_of(self, asked, root):
        """Tries the edits of these crates, given by their paths, once the libraries that they stand on are built."""
        self.look_up(asked, root)
        left = [it for it, paths in asked.items() if not all((it, path) in self.told for path in paths)]
        below = list(dict.fromkeys(library for crate in left for library in crate.below()))
        # (no other rt works in these folders meanwhile)
        held = rtlib.lock([*asked, *below])
        with open(os.devnull, "w", encoding="utf-8") as nowhere:
            for crate in [*asked, *below]:
                crate.out = nowhere
            missing = libraries.missing(below)
            lanes.run(self.tasks(asked, missing), self.given.jobs or lanes.lanes())
        self.write_rows([it for it in missing if it not in asked], {})
        for it in held:
            os.close(it)

    def look_up(self, asked, root):
        """Notes which edits are on record, and which of these are tried all the same."""
        self.records = {it: record.read(it) for it in asked}
        for crate, paths in asked.items():
            for path in paths:
                key = self.begun[crate, path] = self.keys.of(crate, path)
                line = self.records[crate].get(name_of(path))
                if line and line.key == key and not self.given.all:
                    self.told[crate, path] = line
        if self.given.names or self.given.record:
            return
        by_name = {f"{crate.name}/{name_of(path)}": (crate, path) for crate, path in self.told}
        commit = sample.commit_of(root)
        chosen = sample.chosen(by_name, commit)
        self.sample = {by_name[it] for it in chosen}
        for it in self.sample:
            del self.told[it]
        if chosen:
            self.say(f"{number_of(len(chosen), 'edit')} of the {len(by_name)} on record, chosen by the commit {commit or '(none)'}: {', '.join(chosen)}")

    def tasks(self, asked, missing):
        """Returns the work to do: first the libraries that most crates wait for, then the crates with the most edits."""
        names, made = {it.name for it in missing}, []
        after = lambda them: [("library", it.name) for it in them if it.name in names]
        for it in missing:
            above = sum(it in other.below() for other in [*asked, *missing])
            call = lambda jobs, it=it: self.builds.build(it, jobs)
            made.append(lanes.Task(("library", it.name), after(it.below()), 1_000_000 + above, call))
        for it, paths in asked.items():
            call = lambda jobs, it=it, paths=paths: self.crate(it, paths, jobs)
            # (the work that a crate's own build keeps serves its edits)
            left = sum((it, path) not in self.told for path in paths)
            made.append(lanes.Task(("edits", it.name), after([*it.below(), it] * bool(left)), left, call))
        return made

    def crate(self, crate, paths, jobs):
        """Tries one crate's edits, but for those that stay as the record has them, and prints their rows."""
        edits = [Edit(it) for it in paths]
        verdicts, checks, seconds = self.tried(crate, [it for it in edits if (crate, it.path) not in self.told], jobs)
        lost = [it for it in verdicts if (crate, it.path) in self.sample and verdicts[it].word != REFUSED]
        if lost:
            self.say(f"{crate.name}: {lost[0].name} is on record and is not refused, so the whole crate is tried")
            more = self.tried(crate, [it for it in edits if it not in verdicts], jobs)
            verdicts, checks, seconds = {**verdicts, **more[0]}, checks + more[1], seconds + more[2]
        if self.given.record:
            self.note(crate, edits, verdicts)
        told = {it: on_record(self.told[crate, it.path]) for it in edits if it not in verdicts}
        verdicts = {it: verdicts.get(it) or told[it] for it in edits}
        with self.printing:
            print(f"== {crate.name}: {number_of(len(edits), 'edit')} in {number_of(checks, 'check')}, {seconds:.0f} processor seconds")
            print(*rows(verdicts), sep="\n", flush=True)
            refused = [it for it, verdict in verdicts.items() if verdict.word == REFUSED]
            self.passed += len(refused)
            self.on_record += len(told)
            self.failed += [f"{crate.name}/{it.name} ({verdicts[it].word})" for it in edits if it not in refused]
            self.write_rows([crate], {crate.name: (len(edits), checks, seconds)})

    def tried(self, crate, edits, jobs):
        """Tries these edits of a crate, and returns the verdict on each, how many checks it took, and the processor seconds."""
        if not edits:
            return {}, 0, 0.0
        try:
            return self.tried_on_a_copy(crate, edits, jobs)
        except subprocess.CalledProcessError as error:
            return {it: Verdict("no-verdict", f"the crate's source cannot be read: {error}") for it in edits}, 0, 0.0

    def tried_on_a_copy(self, crate, edits, jobs):
        """Does the same, where the crate's source can be read."""
        lost = next((it for it in crate.below() if it.name in self.builds.failed), None)
        if lost:
            why = f"the library {lost.name}: {self.builds.failed[lost.name]}"
            return {it: Verdict("no-verdict", why) for it in edits}, 0, 0.0
        log_folder = self.given.keep and f"{os.path.abspath(self.given.keep)}/{crate.name}"
        workshop = Workshop(crate, f"{self.room}/{crate.name}", log_folder, self.given.fresh)
        for it in edits:
            it.read(workshop.functions.text_of)
            if not it.why:
                workshop.functions.place(it)
        trials = Trials(workshop, jobs, lambda text: self.say(f"{crate.name}: {text}"))
        trials.run(edits, self.given.alone, libraries.names_where_proved(crate))
        shutil.rmtree(workshop.room, ignore_errors=True)
        return trials.verdicts, workshop.number, workshop.seconds

    def note(self, crate, edits, verdicts):
        """Writes the crate's record: what this run saw refused, and what was on record and was not tried."""
        names = [it for it in os.listdir(os.path.dirname(record.file_of(crate))) if it.endswith(".edit")]
        lines = {name: line for name, line in self.records[crate].items() if f"{name}.edit" in names}
        texts.forget()
        now = record.Keys()
        for it in edits:
            if it not in verdicts:
                continue
            lines.pop(it.name, None)
            # (of the text that was there before it was tried, if that is there still)
            key = self.begun[crate, it.path]
            if verdicts[it].word == REFUSED and key and key == now.of(crate, it.path):
                lines[it.name] = record.Line(key, ", ".join(judge.shown() for judge in it.judges), verdicts[it].why)
        record.write(crate, lines)

    def write_rows(self, crates, counts):
        """Appends a line for each of these crates to the file of --rows. Its seconds are with those of its own library."""
        if not self.given.rows:
            return
        with open(self.given.rows, "a", encoding="utf-8") as it:
            for crate in crates:
                edits, checks, seconds = counts.get(crate.name, (0, 0, 0.0))
                seconds += self.builds.seconds.get(crate.name, 0.0)
                it.write(f"{crate.name}\t{edits}\t{checks}\t{seconds:.1f}\n")

    def last_lines(self):
        """Returns the lines that end the output."""
        failed = [f"FAILED: {', '.join(self.failed)}"] * bool(self.failed)
        told = f"{self.passed + len(self.failed) - self.on_record} tried, {self.on_record} refused as the record has it"
        return [*failed, told, f"{self.passed} passed, {len(self.failed)} failed"]


def name_of(path):
    """Returns the name of an edit, given by its file."""
    return os.path.splitext(os.path.basename(path))[0]


def on_record(line):
    """Returns the verdict on an edit that is not tried, from its line in the record."""
    return Verdict(REFUSED, f"on record: {line.refused_at} | {line.goal}")


def number_of(many, word):
    """Returns a count of things, in words."""
    return f"{many} {word}{'s' * (many != 1)}"


def rows(verdicts):
    """Returns a line for each edit, those that failed last."""
    wide = max((len(it.name) for it in verdicts), default=0)
    made = []
    for edit, verdict in sorted(verdicts.items(), key=lambda it: (it[1].word != REFUSED, it[0].name)):
        where = "" if verdict.why.startswith("on record: ") else f"{places_of(edit)} | "
        made.append(f"{verdict.word:<11}  {edit.name:<{wide}}  {where}{verdict.why}")
    return made


def places_of(edit):
    """Returns the functions that an edit changes, and those that refuse it instead."""
    where = ", ".join(it.shown() for it in edit.functions) or "no function"
    return where + "".join(f", refused at {it}" for it in edit.callers)
