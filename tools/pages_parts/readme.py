"""The page of each library, `crates/NAME/README.md`: what it is, what contracts see of it, what is proved, an example."""
import os
import re

from . import crates
from .callers import Callers
from .regions import BEGIN, END
from .rows import coded, contracts_in, definitions_in, full_name, link, table
from .texts import plain

PROMISES, WHOLE = "docs/PROMISES.md", "in-plain-words"
# A longer example is linked, and not shown.
LINES = 24
# An implementation of a trait that prints, up to its end; and a type whose printed text stands in its attributes.
PRINTS = re.compile(r"^impl(?:<[^{]*?>)? fmt::(?P<how>Debug|Display)\s+for (?P<type>\w+).*?^\}", re.M | re.S)
PRINTED = re.compile(r"^#\[derive\([^)]*\bError\b[^)]*\)\]\n(?:#\[.*\n)*pub (?:enum|struct) (?P<type>\w+)", re.M)
MEMBER = re.compile(r"^ +ghost (?!use\b)", re.M)
HOW = {"Debug": "{:?}", "Display": "{}"}
KEY = """*needs*: the conditions of a call. After them stand the labels of its clauses, which are proved. *law*: a function
that does nothing, and whose clauses a caller cites. *ghost*: a member of a trait of which contracts speak, and which an
implementor owes. A row with … adds to the one above it: what one clause says, or conditions and errors. The exact statements
stand in the files."""


class Readmes:
    """The pages of a repository's libraries."""

    def __init__(self, texts, every):
        self.texts, self.every, self.reach = texts, every, crates.reach(every)
        self.libraries = crates.libraries(texts, every)
        self.names = [it.name for it in self.libraries]
        tests = [it.name for it in every if it.name not in self.names]
        self.callers = Callers(texts, self.names, tests)

    def pages(self):
        """Returns the text of each page by its path."""
        return {page_of(it.name): self.whole(it) for it in self.libraries}

    def whole(self, crate):
        """Returns a page, which is one region."""
        page = page_of(crate.name)
        parts = (self.place(crate, page), self.items(crate, page), self.definitions(crate, page), self.proved(crate),
                 self.example(crate, page), self.inner(crate, page))
        body = "\n\n".join(it.strip("\n") for it in parts if it)
        return f"{BEGIN.format(f'library {crate.name}')}\n# `{crate.name}`\n\n{body}\n\n{END}\n"

    def place(self, crate, page):
        """Returns what a library says of itself, and a list of what stands below and above it, and of where else to read."""
        kit = [f"{coded(crate.kit)} of the kit"] if crate.kit else []
        lists = {
            "Its group in `crates.txt`": [f"*{crate.group}*"],
            "Below it": [self.linked(it, page) for it in crates.nearest(crate, self.reach)] + kit,
            "Above it": [self.linked(it.name, page) for it in self.libraries if crate.name in crates.nearest(it, self.reach)],
            "Users name its items through": [self.linked(it, page) for it in self.facades(crate.name)],
            "Counterparts in Plonky3, with [differences](../../docs/DIFFERENCES.md)": self.twins(crate.name),
            "How to call it": ["[CALLING](CALLING.md)"] if f"crates/{crate.name}/CALLING.md" in self.texts.files else [],
            "What its clauses promise, in plain words": [f"[`{PROMISES}`](../../{PROMISES}#{self.section(page)})"],
        }
        rows = "\n".join(f"- {name}: {', '.join(words)}" for name, words in lists.items() if words)
        return f"{self.doc(crate.name)}\n\n{rows}"

    def doc(self, name):
        """Returns the doc comment of a library."""
        lines = self.texts.of(f"crates/{name}/src/lib.rt").split("\n")
        end = next((at for at, it in enumerate(lines) if not it.startswith("//!")), len(lines))
        return plain("\n".join(it[3:].removeprefix(" ") for it in lines[:end]))

    def linked(self, name, page):
        """Returns a link to the page of a crate, or to its folder where it has none."""
        return link(page_of(name) if name in self.names else f"crates/{name}", page, name)

    def twins(self, name):
        """Returns the counterparts in Plonky3 of what a library shows, by their crates."""
        found = {}
        for twin, crate in (it.twin for it in self.callers.items[name] if it.twin):
            found.setdefault(crate, []).append(twin)
        return [", ".join(dict.fromkeys(twins)) + (f" of {crate}" if crate else "") for crate, twins in found.items()]

    def facades(self, name):
        """Returns the libraries that show items of a library."""
        found = (path.split("::")[0] for path, (library, _) in self.callers.shown.items() if library == name)
        return list(dict.fromkeys(it for it in found if it != name))

    def section(self, page):
        """Returns the place of the section of plain words on a library: the first one with a link to its page."""
        heading = WHOLE
        for line in self.texts.of(PROMISES).split("\n") if PROMISES in self.texts.files else ():
            heading = re.sub(r"[^\w\- ]", "", line[4:].lower()).replace(" ", "-") if line.startswith("### ") else heading
            if f"](../{page})" in line:
                return heading
        return WHOLE

    def items(self, crate, page):
        """Returns a table for each file of a library that shows something, and what it shows of other libraries."""
        made = []
        for path in self.texts.matching(rf"crates/{crate.name}/src/.*\.rt"):
            rows = list(contracts_in(self.texts, path))
            head = self.texts.head(path) if not path.endswith("/lib.rt") else ""
            said = f"{head}.\n\n" if head else ""
            made += [f"### {link(path, page)}\n\n{said}{table(('Item', 'What it is or does', 'Clauses'), rows)}"] if rows else []
        shown = self.shown(crate.name, page)
        key = [f"{KEY}\n"] if made else []
        return "\n".join(["## Public items\n", *key, *made, shown]) if made or shown else ""

    def shown(self, name, page):
        """Returns a table of what a library shows of others, by the module that shows it."""
        rows = {}
        for path, (library, _) in self.callers.shown.items():
            module, _, item = path.rpartition("::")
            if module.split("::")[0] == name:
                rows.setdefault((module, library), []).append(item)
        cells = [(f"`{module}`", coded(items), self.linked(library, page)) for (module, library), items in sorted(rows.items())]
        return f"### Items of other libraries\n\n{table(('In', 'Items', 'Of'), cells)}" if cells else ""

    def definitions(self, crate, page):
        """Returns the table of the definitions that contracts cite."""
        paths = crates.parts(self.texts, crate.name, "specs")
        rows = [row for path in paths for row in definitions_in(self.texts, path, page)]
        return f"## Definitions that contracts cite\n\n{table(('Definition', 'What it is'), rows)}" if rows else ""

    def proved(self, crate):
        """Returns what is proved of a library, what only tested, and what neither."""
        functions = [it for it in self.callers.items[crate.name] if not it.is_type and not it.is_ghost]
        clauses, tests = sum(it.clauses for it in functions), self.callers.naming(crate.name)
        said = [f"**Proved**: {'; '.join(self.promised(crate.name, clauses)) or 'nothing, as it has no code of its own'}."]
        said += [self.refused(crate.name)]
        said += [f"**Tests and programs** that name items of it: {coded(tests) or 'none'}."]
        said += [self.unproved(crate.name, it) for it in functions if it.is_public and not it.clauses]
        said += [self.unprinted(crate.name)]
        return "## What is proved, and what not\n\n" + "\n".join(f"- {it}" for it in said if it)

    def promised(self, name, clauses):
        """Returns what is proved of a library with so many clauses."""
        code = "\n".join(self.texts.of(it) for it in self.callers.paths_of(name))
        lemmas = [*crates.parts(self.texts, name, "proofs"), *self.texts.matching(rf"crates/{name}/specs/\w+Laws\.antt")]
        returns = f"[returns](../../{PROMISES}#totality-and-named-refusals) on all inputs that meet its conditions"
        found = {
            f"{counted(clauses, 'clause')} of public functions": clauses,
            "what its types owe to the traits that they implement": re.search(r"^(?:unsafe )?impl\b.* for\b", code, re.M),
            f"that each function, private ones too, {returns}": re.search(r"^ *(?:pub )?(?:const )?fn ", code, re.M),
            "its lemmas": lemmas,
        }
        return [it for it, is_there in found.items() if is_there]

    def unproved(self, name, item):
        """Returns what is said of a function without a clause."""
        tests = self.callers.testing(name, item)
        what = f"`{full_name(item)}` of `{os.path.basename(item.path)}` has no clause"
        return f"{what}: what it does is only tested, by {coded(tests)}." if tests else f"{what}, and nothing tests it by name."

    def refused(self, name):
        """Returns how many wrong bodies of a library stand on record, or nothing where it has none."""
        path = f"crates/{name}/wrong-bodies/REFUSED.tsv"
        many = self.texts.of(path).count("\n") - 1 if path in self.texts.files else 0
        said = "**[Wrong bodies](../../docs/WRONG_BODIES.md)** on [record](wrong-bodies/REFUSED.tsv), which the proofs refused"
        return f"{said}: {many}." if many else ""

    def unprinted(self, name):
        """Returns of which types no clause says what is printed, or nothing."""
        found = {"{}": [], "{:?}": []}
        for path in self.texts.matching(rf"crates/{name}/src/.*\.rt"):
            text = self.texts.of(path)
            for it in PRINTS.finditer(text):
                found[HOW[it["how"]]] += [] if MEMBER.search(it[0]) else [it["type"]]
            found["{}"] += [it["type"] for it in PRINTED.finditer(text)]
        said = [f"`{how}` prints of {coded(types)}" for how, types in found.items() if types]
        return f"**Neither**: no clause says what {' and what '.join(said)}." if said else ""

    def example(self, crate, page):
        """Returns the shortest function that calls one of the library, or nothing where none does."""
        found = self.callers.example(crate.name)
        if not found:
            return ""
        called = coded(name for library, name in found.called if library == crate.name)
        inside = f"{found.path.split('/')[1]}/{found.path.split('/', 3)[3]}"
        place = f"`{found.name}` of {link(found.path, page, inside)} calls {called}"
        if len(found.lines) > LINES:
            return f"## An example\n\n{place}."
        indent = len(found.lines[0]) - len(found.lines[0].lstrip())
        code = "\n".join(it[indent:] for it in found.lines)
        return f"## An example\n\n{place}:\n\n```rust\n{code}\n```"

    def inner(self, crate, page):
        """Returns the table of the files that no caller names: of code that shows nothing, and of lemmas."""
        code = [it for it in crates.parts(self.texts, crate.name, "src") if not list(contracts_in(self.texts, it))]
        shown = {f"crates/{path.split('::')[0]}" for path in self.callers.shown}
        code = [] if f"crates/{crate.name}" in shown and not self.callers.items[crate.name] else code
        rows = [(link(it, page), self.texts.head(it)) for it in [*code, *crates.parts(self.texts, crate.name, "proofs")]]
        return f"## Files that only the crate names\n\n{table(('File', 'What it is'), rows)}" if rows else ""


def page_of(name):
    """Returns the path of the page of a library."""
    return f"crates/{name}/README.md"


def counted(many, one):
    """Returns a number with what it counts."""
    return f"{many:,} {one}{'' if many == 1 else 's'}"
