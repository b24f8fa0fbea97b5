"""What each region of a page in `docs` says: tables of crates, of contracts, and of what crates without a page have."""
from . import crates
from .readme import page_of
from .rows import coded, definitions_in, items_of, link, table

# A page of the folder in which regions are: their links begin there.
HERE = "docs/MAP.md"


class Tables:
    """The writers of a repository's regions, by the names that pages give them."""

    def __init__(self, texts):
        self.texts, self.every = texts, crates.crates(texts)
        self.libraries = crates.libraries(texts, self.every)
        self.others = [it for it in self.every if it not in self.libraries]

    def writers(self):
        """Returns what writes a region of each name."""
        names = ("crates", "layers", "files", "lemmas", "data", "definitions", "contracts", "edits")
        return {it: getattr(self, it) for it in names}

    def named(self, crate):
        """Returns the name of a crate, which leads to its page if it has one."""
        return link(page_of(crate.name), HERE, crate.name) if crate in self.libraries else f"`{crate.name}`"

    def crates(self):
        """Returns the table of crates: what each does, and the nearest that it stands on."""
        below, rows = crates.reach(self.every), []
        for it in self.every:
            on = [f"`{name}`" for name in crates.nearest(it, below)]
            on += ["the kit's " + ", ".join(f"`{name}`" for name in it.kit)] if it.kit else []
            rows.append((self.named(it), crates.does(self.texts, it.name), ", ".join(on) or "nothing"))
        return table(("Crate", "Does", "Stands on"), rows)

    def layers(self):
        """Returns the crates in lines, each of those that stand on the lines before, and the longest chain."""
        lines = [wrapped(names, 100) for names in crates.levels(self.every)]
        longest = ", ".join(f"`{it}`" for it in crates.chain(self.every))
        return "```text\n" + "\n".join(lines) + f"\n```\n\nThe longest chain is {longest}.\n"

    def files(self):
        """Returns a table of the files of code and of definitions for each crate without a page."""
        return "\n".join(filter(None, (self.files_of(it.name) for it in self.others)))

    def files_of(self, crate):
        """Returns the table of a crate's files, or nothing where its code is in one file."""
        rows = []
        for path in crates.parts(self.texts, crate, "src"):
            head = self.texts.head(path)
            names = [it for it in crates.shown(self.texts, path) if it not in head]
            rows.append((link(path, HERE), f"{head}{': ' if names and head else ''}{coded(names)}"))
        rows += [(link(path, HERE), self.texts.head(path)) for path in crates.parts(self.texts, crate, "specs")]
        return f"### `{crate}`\n\n{table(('File', 'What it is'), rows)}" if rows else ""

    def lemmas(self):
        """Returns the table of the files of lemmas and worked rows that only their own crate cites, of crates without a page."""
        paths = [path for it in self.others for path in crates.parts(self.texts, it.name, "proofs")]
        return table(("File", "What it is"), [(within(path), self.texts.head(path)) for path in paths])

    def data(self):
        """Returns the table of the files of data: what each says of itself."""
        rows = [(within(path), self.texts.head(path)) for path in self.texts.matching(r"crates/\w+/data/\w+\.txt")]
        return table(("File", "What it says of itself"), rows)

    def definitions(self):
        """Returns a table of the definitions of each crate without a page, by the comment above each."""
        made = []
        for it in self.others:
            paths = [path for path in crates.parts(self.texts, it.name, "specs") if not path.endswith("Laws.antt")]
            rows = [row for path in paths for row in definitions_in(self.texts, path, HERE)]
            made += [f"### `{it.name}`\n\n{table(('Definition', 'What it is'), rows)}"] if rows else []
        return "\n".join(made)

    def edits(self):
        """Returns the table of how many wrong bodies each crate has that has any."""
        counts = {it.name: len(self.texts.matching(rf"crates/{it.name}/wrong-bodies/[^/]*\.edit")) for it in self.every}
        rows = [f"| `{name}` | {many} |" for name, many in counts.items() if many]
        return "\n".join(["| Crate | Edits |", "|---|--:|", *rows, f"| all | {sum(counts.values())} |"])

    def contracts(self):
        """Returns the table of the libraries: how much each shows, and how many clauses and definitions it has."""
        rows = [(self.named(it), *self.counted(it.name)) for it in self.libraries]
        sums = [sum(row[at] for row in rows) for at in range(1, 6)]
        heads = ("Crate", "Types and traits", "Functions", "Laws", "Clauses", "Definitions")
        return table(heads, [[row[0], *(f"{it:,}" for it in row[1:])] for row in [*rows, ("all", *sums)]])

    def counted(self, name):
        """Returns how many types, functions, laws, clauses and definitions a library has."""
        items = [it for path in self.texts.matching(rf"crates/{name}/src/.*\.rt") for it in items_of(self.texts, path)]
        types, laws = [it for it in items if it.is_type], [it for it in items if it.is_law and not it.is_ghost]
        functions = [it for it in items if it.is_public and not (it.is_type or it.is_law)]
        paths = [it for it in crates.parts(self.texts, name, "specs") if not it.endswith("Laws.antt")]
        many = sum(len(list(crates.defined(self.texts.of(it)))) for it in paths)
        return len(types), len(functions), len(laws), sum(it.clauses for it in items), many


def within(path):
    """Returns a link to a file, named by its path within `crates`."""
    return link(path, HERE, path.removeprefix("crates/"))


def wrapped(names, width):
    """Returns names in a line of a block, on further lines beneath where they pass the width."""
    lines = [""]
    for it in names:
        if lines[-1] and len(lines[-1]) + 2 + len(it) > width:
            lines.append("")
        lines[-1] += f"  {it}" if lines[-1] else it
    return "\n    ".join(lines)
