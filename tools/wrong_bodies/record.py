"""The record of refusals, which is committed: `crates/NAME/wrong-bodies/REFUSED.tsv`.

It has a line for each edit that was seen refused: its name, a key, the functions that refused it, and the first goal. The key
is a checksum of all that the verdict rests on, and of no more: the edit, the logic of the kit, the part of this command that
decides, the crate's text without comments, and what each library below it states. So a line counts as long as its key is that
of the edit now. Only `--record` writes it, after it saw the refusals.
"""
import ast
import collections
import os
import subprocess

from . import texts
from .edits import BadEdit, parsed
from .kit import rtlib

FILE = "REFUSED.tsv"
HEAD = ("edit", "key", "refused at", "first goal")
OWN = os.path.dirname(os.path.realpath(__file__))
# The modules that decide whether an edit counts as refused.
DECIDING = ("check", "edits", "findings", "functions", "impl_names", "layout", "trials", "verdicts")
# As many hexadecimal digits as no two texts will ever share.
DIGITS = 32

Line = collections.namedtuple("Line", "key refused_at goal")


def logic():
    """Returns the sum of the kit's logic."""
    return (rtlib.text_of(f"{rtlib.KIT}/KIT-ID") or "").partition(" logic ")[2].strip()


def deciding():
    """Returns a checksum of the part of this command that decides, without comments."""
    return texts.sum_of([(it, code_of(f"{OWN}/{it}.py")) for it in DECIDING])


def code_of(path):
    """Returns the code of a Python file without its comments and the texts that describe its parts."""
    with open(path, encoding="utf-8") as it:
        tree = ast.parse(it.read())
    for node in ast.walk(tree):
        is_part = isinstance(node, (ast.Module, ast.ClassDef, ast.FunctionDef))
        if is_part and ast.get_docstring(node) is not None:
            node.body = node.body[1:]
    return ast.dump(tree)


class Keys:
    """The keys of edits, on the text that there is."""

    def __init__(self):
        self.of_all = (logic(), deciding())
        # By crate, what the verdicts on its edits rest on.
        self.of_crates = {}

    def of_crate(self, crate):
        """Returns what the verdicts on a crate's edits rest on."""
        if crate not in self.of_crates:
            below = [(it.name, texts.stated(it)) for it in crate.below()]
            self.of_crates[crate] = (*self.of_all, crate.name, crate.of_kit, texts.whole(crate), below)
        return self.of_crates[crate]

    def of(self, crate, path):
        """Returns the key of an edit of the crate, or None where the edit or a text cannot be read."""
        try:
            with open(path, encoding="utf-8") as it:
                said = parsed(it.read())
            return texts.sum_of((*self.of_crate(crate), os.path.basename(path), said))[:DIGITS]
        except (BadEdit, OSError, ValueError, subprocess.CalledProcessError):
            return None


def file_of(crate):
    """Returns the path of a crate's record."""
    return f"{crate.folder}/wrong-bodies/{FILE}"


def read(crate):
    """Returns the lines of a crate's record, by the edit's name. A file that is missing is an empty record."""
    found = {}
    for line in (rtlib.text_of(file_of(crate)) or "").split("\n")[1:]:
        cells = line.split("\t")
        if len(cells) == len(HEAD):
            found[cells[0]] = Line(*cells[1:])
    return found


def write(crate, lines):
    """Writes a crate's record, given by the edit's name."""
    rows = [HEAD, *((name, *lines[name]) for name in sorted(lines))]
    made = "".join("\t".join(" ".join(cell.split()) for cell in row) + "\n" for row in rows)
    if made != rtlib.text_of(file_of(crate)):
        with open(file_of(crate), "w", encoding="utf-8") as it:
            it.write(made)
