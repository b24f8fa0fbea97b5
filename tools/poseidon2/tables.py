"""The tables of p3_poseidon2, in its definitions and in its code."""
import collections
import re

CRATE = "crates/p3_poseidon2"
# A table: its file, its name there, what finds its text, and the numbers that it should have.
Table = collections.namedtuple("Table", "path name pattern numbers")


def tables(it, constants):
    """Returns the tables of a set: in the definitions a list or a list of lists each, and in the code one for each external round."""
    path = f"{CRATE}/specs/{it.type}{it.width}.antt"
    for name, value in constants._asdict().items():
        numbers = [number for row in value for number in row] if isinstance(value[0], list) else value
        yield Table(path, name, rf"^{name} =\n(?P<text>.*?)(?=\n\n|\Z)", numbers)
    path = f"{CRATE}/src/{it.name}.rt"
    for name, value in constants._asdict().items():
        rows = [(f"_{place}", row) for place, row in enumerate(value)] if isinstance(value[0], list) else [("", value)]
        for end, row in rows:
            name_there = f"{name.upper()}{end}"
            yield Table(path, name_there, rf"^const {name_there}: [^=]*=(?P<text>.*?);$", row)


def numbers_of(table, text):
    """Returns the numbers that a table has in its file's text."""
    found = re.search(table.pattern, text, re.M | re.S)
    return [int(it, 16) for it in re.findall(r"\b0x[0-9a-f]+\b", found["text"])] if found else []


def written(table, text):
    """Returns the text of a table's file with the right numbers in the place of as many others."""
    found = re.search(table.pattern, text, re.M | re.S)
    left = iter(table.numbers)
    new = re.sub(r"\b0x([0-9a-f]+)\b", lambda old: f"0x{next(left):0{len(old[1])}x}", found["text"])
    return text[: found.start("text")] + new + text[found.end("text") :]


def shape(it):
    """Returns the words of a set's files that give its cells, its S-box and its rounds."""
    yield f"{CRATE}/specs/{it.type}{it.width}.antt", f"permuted residues {it.width} {it.degree} "
    yield f"{CRATE}/src/{it.name}.rt", f"= Poseidon2<{it.type}, {it.width}, {it.degree}, {it.internal}>;"
