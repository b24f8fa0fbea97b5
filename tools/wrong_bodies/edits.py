"""Edits: what a file of `wrong-bodies/` says, and which places of the crate's text it changes.

An edit file has lines `file: src/x.rt`, `old: TEXT` and `new: TEXT`. The old text stands exactly once in that file, as the
pairs above it left it. A line `refused at: NAME` says that a caller of that name refuses the edit, or a ghost member of that
name, and not the function that it changes; there may be several. Any other line is a remark.
"""
import collections
import os

Pair = collections.namedtuple("Pair", "file old new")
# The characters from start to end of a file, as the repository has it, become text.
Change = collections.namedtuple("Change", "start end text")


class BadEdit(Exception):
    """Says why an edit cannot be applied."""


class Edit:
    """One edit: the text that it changes, and the functions that have to refuse it."""

    def __init__(self, path):
        self.path = path
        self.name, ending = os.path.splitext(os.path.basename(path))
        # Why it cannot be tried, or None.
        self.why = None if ending == ".edit" else f"an edit's name ends in .edit, and not in {ending or 'nothing'}"
        # By file, what it changes.
        self.changes = {}
        # The names after `refused at:`.
        self.callers = []
        # The functions that it changes, and those in which it has to be refused.
        self.functions, self.judges = [], []
        # Whether it may change what holds of other functions too, so that it is checked with no other edit.
        self.is_apart = False

    def read(self, text_of):
        """Reads the edit over the crate's files, whose texts the call text_of gives."""
        if self.why:
            return
        try:
            with open(self.path, encoding="utf-8") as it:
                pairs, self.callers = parsed(it.read())
            self.changes = changes_of(pairs, text_of)
        except BadEdit as error:
            self.why = str(error)
        except (OSError, ValueError) as error:
            self.why = f"it cannot be read ({error})"


def parsed(text):
    """Returns the pairs that an edit file has, and its names after `refused at:`."""
    file, old, pairs, callers = "", None, [], []
    for line in text.split("\n"):
        if line.startswith("file: "):
            file = path_in(line[len("file: ") :].strip())
        elif line.startswith("old: "):
            old = line[len("old: ") :]
        elif line.startswith("new:"):
            if not file or not old:
                raise BadEdit("a 'new:' line stands before any 'file:' or 'old:' line")
            rest = line[len("new:") :]
            pairs.append(Pair(file, old, rest[1:] if rest.startswith(" ") else rest))
            old = None
        elif line.startswith("refused at: "):
            callers.append(line[len("refused at: ") :].strip())
        elif line.startswith("refused"):
            raise BadEdit("a line begins with 'refused' and is no 'refused at: NAME'")
    if not pairs or old is not None:
        raise BadEdit("an 'old:' line has no 'new:' line" if pairs else "it has no 'old:' and 'new:' pair")
    return pairs, callers


def path_in(path):
    """Returns the path of a `file:` line, once it is one of the crate's own texts."""
    if os.path.normpath(path) != path or not path.startswith(("src/", "specs/", "proofs/")):
        raise BadEdit("a 'file:' line names no file below src/, specs/ or proofs/")
    return path


def changes_of(pairs, text_of):
    """Returns, by file, what the pairs change, each in the text that those before it made."""
    traced = {}
    for pair in pairs:
        if pair.file not in traced:
            text = text_of(pair.file)
            if text is None:
                raise BadEdit(f"there is no file {pair.file}")
            traced[pair.file] = Traced(text)
        number = traced[pair.file].text.count(pair.old)
        if number != 1:
            raise BadEdit(f"an 'old:' text is in {pair.file} {number} times, and not once: {pair.old[:60]}")
        traced[pair.file].replace(pair.old, pair.new)
    found = {file: it.changes() for file, it in traced.items()}
    if not any(found.values()):
        raise BadEdit("it changes nothing")
    return {file: changes for file, changes in found.items() if changes}


class Traced:
    """A text under edits, which keeps of each character the place where it stood at first."""

    def __init__(self, text):
        self.first = self.text = text
        self.places = list(range(len(text)))

    def replace(self, old, new):
        """Puts new for the one place of old. What the two share at either end stays as it is."""
        head = shared_length(old, new)
        tail = shared_length(old[head:][::-1], new[head:][::-1])
        middle = new[head : len(new) - tail]
        start = self.text.index(old) + head
        end = start - head + len(old) - tail
        self.text = self.text[:start] + middle + self.text[end:]
        self.places[start:end] = [None] * len(middle)

    def changes(self):
        """Returns what differs from the first text."""
        found, after, added = [], 0, ""
        for at in range(len(self.text) + 1):
            place = self.places[at] if at < len(self.text) else len(self.first)
            if place is None:
                added += self.text[at]
                continue
            if place != after or added:
                found.append(Change(after, place, added))
            after, added = place + 1, ""
        return found


def shared_length(one, other):
    """Returns how many characters two texts share at their beginning."""
    return len(os.path.commonprefix([one, other]))
