"""What of a crate's text a verdict rests on: all of it but comments, or of a library below just what it states.

Both are taken from the tokens that the kit's own reader prints. Between two tokens of a clause, a definition or a proof it
counts whether a blank stands there, and where a line begins how far in, which may have a meaning; between two of the code it
counts only whether two signs make one operator.
"""
import functools
import glob
import hashlib
import json
import os
import re
import subprocess

from .kit import bodies, rtlib

PARTS = ("src", "specs", "proofs")
# The kinds of the tokens of clauses, definitions and proofs, and the signs that operators of the code are made of.
OF_LOGIC = ("Antt", "Text")
SIGNS = {*"<>=&|:+-*/!.%^"}


def files_of(crate, parts):
    """Returns the paths of the texts that stand in these parts of a crate, below its folder."""
    found = []
    for part in parts:
        inside = glob.glob(f"{glob.escape(crate.folder)}/{part}/**/*", recursive=True)
        found += [os.path.relpath(it, crate.folder) for it in inside if it.endswith((".rt", ".antt"))]
    return sorted(found)


def tokens_of(crate, files):
    """Returns, by file, its tokens as their first byte, their end, their kind and their text, as the check reads them."""
    if not files:
        return {}
    words = [rtlib.RATTLE, "fmt", "--tokens", *(f"{crate.folder}/{it}" for it in files)]
    said = subprocess.run(words, capture_output=True, encoding="utf-8", check=True).stdout
    found = []
    for line in said.split("\n"):
        if line.startswith("file "):
            found.append([])
        elif line:
            _, first, end, kind, text = line.split(" ", 4)
            found[-1].append((int(first), int(end), kind, json.loads(text)))
    return dict(zip(files, found, strict=True))


def written(data, tokens, left_out=()):
    """Returns the tokens of a file, given its bytes, in a row, but for those that begin in a stretch that is left out."""
    made, last = [], None
    for it in tokens:
        first, _, _, text = it
        if any(begin <= first < stop for begin, stop in left_out):
            last = None
            continue
        made += [between(data, last, it), text]
        last = it
    return "".join(made)


def between(data, last, token):
    """Returns what counts of what stands between a token and the last one, or None where none stands before it or it is left out."""
    is_of_logic = token[2] in OF_LOGIC
    if last is None or (last[2] in OF_LOGIC) != is_of_logic:
        return " "
    gap = data[last[1] : token[0]]
    if not is_of_logic:
        return "" if not gap and {last[3], token[3]} <= SIGNS else " "
    if b"\n" in gap:
        indentation = token[0] - data.rfind(b"\n", 0, token[0]) - 1
        return f"\n{indentation} "
    return " " if gap else ""


def unstated(crate):
    """Returns, by file, the stretches of a library's source that nothing above it sees.

    They are the bodies of functions, but not of those that a constant may be made by; whole functions that are private; and
    which tactic proves a function.
    """
    source = bodies.Source(crate.folder)
    source.read("src/lib.rt")
    found = {}
    for it in source.functions:
        data = source.data[it.file]
        is_seen = it.is_pub or it.in_trait
        is_const = re.search(rb"\bconst\b", data[it.first : it.start])
        stretch = [(it.opens + 1, it.end - 1)] * (it.has_body and not is_const) if is_seen else [(it.first, it.end)]
        found.setdefault(it.file, []).extend(stretch + it.attributes)
    return found


def sum_of(parts):
    """Returns a checksum of a list of texts and lists of texts."""
    return hashlib.sha256(repr(parts).encode()).hexdigest()


@functools.lru_cache(maxsize=None)
def whole(crate):
    """Returns a checksum of a crate's source, specifications and proofs without comments."""
    return sum_of(texts(crate, PARTS, {}))


@functools.lru_cache(maxsize=None)
def stated(crate):
    """Returns a checksum of what a library states: signatures, contracts, types, ghost members and specifications."""
    return sum_of(texts(crate, ("src", "specs"), unstated(crate)))


def texts(crate, parts, left_out):
    """Returns each file of these parts of a crate, and its text without comments and without what is left out."""
    found = []
    for file, tokens in tokens_of(crate, files_of(crate, parts)).items():
        with open(f"{crate.folder}/{file}", "rb") as it:
            found.append((file, written(it.read(), tokens, left_out.get(file, ()))))
    return found


def forget():
    """Has the next sums be taken of the files as they are then."""
    whole.cache_clear()
    stated.cache_clear()
