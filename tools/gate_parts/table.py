"""The table of what each crate took."""
import collections
import re

HEADS = ("crate", "functions", "minutes of proof", "minutes of tests", "minutes of wrong bodies")
KINDS = ("proof", "tests", "edits")


def by_crate(lines):
    """Yields the lines that the output of rt ci has of the proof of a crate, each with the crate's name."""
    crate = None
    for line in lines:
        head = re.fullmatch(r"== (\w+)(: its tests)?", line)
        if head:
            crate = None if head[2] else head[1]
        elif crate:
            yield crate, line


def functions_in(lines):
    """Returns how many functions each crate has, from the output of rt ci."""
    counts = ((crate, re.match(r"logic=proved .*\bfunctions=(\d+)", line)) for crate, line in by_crate(lines))
    return {crate: int(count[1]) for crate, count in counts if count}


def names_in(lines):
    """Returns the names of the functions of each crate, from the output of rt ci."""
    found = collections.defaultdict(list)
    for crate, line in by_crate(lines):
        name = re.match(rf"fn ({crate}::\S+): proved", line)
        if name:
            found[crate].append(name[1])
    return found


def seconds_of_rows(text):
    """Returns the processor seconds of each crate, from the rows that tools/wrong-bodies wrote."""
    found = collections.defaultdict(float)
    for line in text.splitlines():
        crate, _, _, seconds = line.split("\t")
        found[crate] += float(seconds)
    return found


def rows(crates, functions, seconds):
    """Returns the table's rows: one a crate, one of what is for none, and the sums. The seconds are by crate and kind."""
    made = []
    for crate in crates:
        minutes = [seconds.get((crate, kind), 0.0) / 60 for kind in KINDS]
        made.append([crate, functions.get(crate, 0), *minutes])
    known = {(crate, kind) for crate in crates for kind in KINDS}
    rest = sum(it for key, it in seconds.items() if key not in known) / 60
    made.append(["(no crate's)", 0, rest, 0.0, 0.0])
    made.append(["all", *(sum(row[at] for row in made) for at in range(1, len(HEADS)))])
    return made


def written(made):
    """Returns rows as a table of Markdown."""
    cells = [[row[0], str(row[1]), *(f"{it:.1f}" for it in row[2:])] for row in made]
    wide = [max(len(row[at]) for row in [HEADS, *cells]) for at in range(len(HEADS))]
    lines = [[word.ljust(many) for word, many in zip(HEADS, wide)]]
    lines.append(["-" * wide[0], *("-" * (many - 1) + ":" for many in wide[1:])])
    lines += [[row[0].ljust(wide[0]), *(word.rjust(many) for word, many in zip(row[1:], wide[1:]))] for row in cells]
    return "".join(f"| {' | '.join(it)} |\n" for it in lines)
