"""The crate's text with some edits in it, and what stands where in it."""
import collections


class Layout:
    """One file's text with edits in it."""

    def __init__(self, text, placed):
        """Takes the text as the repository has it, and the pairs of a change and its edit."""
        self.changes, self.rows, made, after = [], [], "", 0
        for change, edit in sorted(placed, key=lambda it: it[0][:2]):
            if change.start < after:
                raise ValueError("two edits change one place")
            made += text[after : change.start]
            first = made.count("\n") + 1
            made += change.text
            self.rows.append((first, made.count("\n") + 1, edit))
            self.changes.append(change)
            after = change.end
        self.text = made + text[after:]

    def moved(self, place, is_end):
        """Returns where a place of the first text now is. What is put in at a place counts for what begins there."""
        before = (it for it in self.changes if it.end <= place and (is_end or it.start < place))
        return place + sum(len(it.text) - (it.end - it.start) for it in before)

    def place(self, row, column):
        """Returns the place in the text of a row and a column, both counted from 1."""
        at = 0
        for _ in range(row - 1):
            at = self.text.find("\n", at) + 1
        return at + column - 1


class Layouts:
    """The crate's files with edits in them."""

    def __init__(self, functions, edits):
        self.functions, self.edits, self.known = functions, edits, {}
        self.placed = collections.defaultdict(list)
        for edit in edits:
            for file, changes in edit.changes.items():
                self.placed[file] += [(it, edit) for it in changes]

    def of(self, file):
        """Returns the layout of one file, or None where there is no such file."""
        if file not in self.known:
            text = self.functions.text_of(file)
            self.known[file] = None if text is None else Layout(text, self.placed.get(file, []))
        return self.known[file]

    def item_at(self, file, row, column):
        """Returns the innermost function or constant that stands there, or the ghost member, or None."""
        layout = self.of(file)
        if not layout:
            return None
        place, found = layout.place(row, column), []
        for it in [*self.functions.items, *self.functions.ghosts]:
            if it.file == file:
                begin, end = layout.moved(it.begin, False), layout.moved(it.end, True)
                found += [(end - begin, it)] * (begin <= place < end)
        return min(found, key=lambda it: it[0])[1] if found else None

    def edits_at(self, file, row):
        """Returns the edits whose text stands in this row."""
        rows = self.of(file).rows if self.of(file) else []
        return [edit for first, last, edit in rows if first <= row <= last]


def clash(one, other):
    """Returns whether two edits change places that overlap or touch."""
    for file in {*one.changes} & {*other.changes}:
        for a in one.changes[file]:
            if any(a.start <= b.end and b.start <= a.end for b in other.changes[file]):
                return True
    return False
