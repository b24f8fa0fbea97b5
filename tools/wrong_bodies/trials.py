"""Which edits of a crate are checked together, and what is tried alone."""
from .layout import clash
from .verdicts import REFUSED, Verdict, judged


def packed(edits):
    """Puts edits of different functions together, into as few batches as a first fit gives, and the others each alone."""
    batches, apart = [], []
    for edit in sorted(edits, key=lambda it: -len(it.functions)):
        if edit.is_apart:
            apart.append([edit])
            continue
        room = next((batch for batch in batches if all(goes_beside(edit, it) for it in batch)), None)
        if room is None:
            batches.append([edit])
        else:
            room.append(edit)
    return batches + apart


def goes_beside(one, other):
    """Returns whether two edits change different functions."""
    return not {*one.functions} & {*other.functions} and not clash(one, other)


def may_stay(edit, other):
    """Returns whether an edit of an earlier batch may stay in the text while another is tried."""
    return not other.is_apart and goes_beside(edit, other)


class Trials:
    """Tries a crate's edits, and keeps the verdict on each."""

    def __init__(self, workshop, jobs, say):
        self.workshop, self.jobs, self.say = workshop, jobs, say
        self.verdicts = {}
        # Edits to be checked in another batch, and those that no batch has settled.
        self.later, self.unsettled = [], []
        # Where only the functions that have to refuse are checked: by function its name, and what stays of the last batch.
        self.names, self.standing = {}, []

    def run(self, edits, is_alone=False, names=()):
        """Tries these edits. Where the crate is known to be proved as it stands, the names of its functions are given."""
        self.verdicts.update((it, Verdict("bad-edit", it.why)) for it in edits if it.why)
        edits = [it for it in edits if not it.why]
        if names:
            self.names = self.workshop.functions.symbols(names)
            self.try_in([it for it in edits if {*it.judges} <= {*self.names}], is_alone)
            self.names, self.standing = {}, []
            # (what is not refused so, is tried as if nothing were known)
            edits = [it for it in edits if it not in self.verdicts or self.verdicts[it].word != REFUSED]
        if not edits:
            return
        unedited = self.check([], "unedited")
        if unedited.is_proved():
            self.try_in(edits, is_alone)
            return
        why = f"the crate is not proved as it stands: {unedited.first_failure()}"
        self.verdicts.update((it, Verdict("no-verdict", why)) for it in edits)

    def check(self, batch, label):
        """Checks one batch, and says so."""
        before = self.workshop.seconds
        # (one function's proof takes one job)
        jobs = min(self.jobs, len(batch)) if batch else self.jobs
        only = [self.names[it] for edit in batch * bool(self.names) for it in edit.judges]
        found = self.workshop.check([*batch, *self.standing], label, jobs, only)
        many = f", {len(batch)} edits" if len(batch) > 1 else ""
        took = f"{self.workshop.seconds - before:.1f} s, {self.workshop.memory / 1e9:.1f} GB"
        self.say(f"check {self.workshop.number} ({label}{many}): {took}")
        return found

    def try_in(self, edits, is_alone):
        """Tries the edits in batches, then what had to leave one, and then alone what no batch has settled."""
        batches = [[it] for it in edits] if is_alone else packed(edits)
        for number, batch in enumerate(batches, 1):
            self.try_batch(batch, f"batch_{number}" if len(batch) > 1 else batch[0].name)
        while self.later:
            left, self.later = self.later, []
            for batch in packed(left):
                self.try_batch(batch, "later" if len(batch) > 1 else batch[0].name)
        unsettled, self.unsettled = self.unsettled, []
        for edit in unsettled:
            self.standing = []
            self.try_batch([edit], edit.name)

    def try_batch(self, batch, label):
        """Checks a batch, less the edits that keep the check from coming to the proofs."""
        # what calls a function that an edit changes need not wait for the proof of the right one
        self.standing = [it for it in self.standing if all(may_stay(it, other) for other in batch)]
        while batch:
            found = self.check(batch, label)
            if self.standing and not found.was_read():
                self.standing = []
                continue
            if found.was_read() and self.names:
                self.standing += [it for it in batch if not it.is_apart]
            if len(batch) == 1:
                self.verdicts[batch[0]] = judged(batch[0], found)
                return
            if found.was_read():
                self.settle(batch, found, label)
                return
            batch = self.without_blamed(batch, found, label)

    def without_blamed(self, batch, found, label):
        """Returns the batch without the edits that the errors point at."""
        blamed = found.blamed()
        if not blamed:
            self.try_halves(batch, label)
            return []
        if len(blamed) == 1:
            self.unsettled += blamed
        else:
            # they may fail only together, as where they make a cycle of calls
            self.later += blamed[1:]
        left_out = blamed[1:] or blamed
        self.say(f"not in {label}: {', '.join(it.name for it in left_out)}")
        return [it for it in batch if it not in left_out]

    def settle(self, batch, found, label):
        """Takes the refusals that a batch shows. What fails elsewhere makes the whole batch doubtful."""
        if not found.has_verdict() or found.reaches_beyond():
            self.say(f"{label}: something failed that none of its edits changes, so it is tried in halves")
            self.try_halves(batch, label)
            return
        for edit in batch:
            verdict = judged(edit, found)
            if verdict.word == REFUSED:
                self.verdicts[edit] = verdict
            else:
                self.unsettled.append(edit)

    def try_halves(self, batch, label):
        """Tries a batch in two parts."""
        self.standing = []
        half = len(batch) // 2
        self.try_batch(batch[:half], f"{label}a")
        self.try_batch(batch[half:], f"{label}b")
