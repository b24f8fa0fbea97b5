"""Who calls the public functions of a library: which function is the shortest example, and which test crates name its items."""
import collections
import os
import re

from . import contracts
from .rows import full_name, items_of
from .uses import Imports, shown_by

# The crates whose functions are examples, each row of them before the next, and before the tests.
EXAMPLES = (("uses", "examples"), ("first_transcript", "transcript_program", "transcript_read_back"))
COMMENT = re.compile(r"^\s*//.*$", re.M)
# A call: of a method, or of a function after a module or a type, or by its name alone.
CALL = re.compile(r"(?P<dot>\.)?(?:\b(?P<owner>\w+)(?:::<[^;]*?>)?::)?\b(?P<name>[a-z]\w*)(?:::<[^;]*?>)?\(")

# A function that calls some of libraries: its path, its row, its name, whether a trait asks for it, its lines, and what it calls,
# each with its library.
Example = collections.namedtuple("Example", "path row name is_asked lines called")


class Callers:
    """The calls in a repository's examples and tests of what its libraries show."""

    def __init__(self, texts, libraries, tests):
        self.texts, self.tests, self.libraries = texts, tests, libraries
        self.items = {it: self.items_in(it) for it in libraries}
        self.members = collections.defaultdict(set)
        for library, items in self.items.items():
            for it in items:
                self.members[library, it.owner].add(it.name)
        self.shown = shown_by(texts, libraries)
        self.code = {it: [COMMENT.sub("", texts.of(path)) for path in self.paths_of(it)] for it in tests}
        self.imports = {it: self.imported(it) for it in tests}
        self.found = {it: self.examples_in(it) for crates in (*EXAMPLES, tests) for it in crates}

    def paths_of(self, crate):
        """Returns the files of code of a crate."""
        return self.texts.matching(rf"crates/{crate}/src/.*\.rt")

    def items_in(self, library):
        """Returns the public types, functions and laws of a library."""
        return [it for path in self.paths_of(library) for it in items_of(self.texts, path)]

    def imported(self, crate):
        """Returns the libraries of which a test crate names an item."""
        return {library for code in self.code[crate] for library, _ in Imports(code, self.libraries, self.shown).items.values()}

    def naming(self, library):
        """Returns the test crates that name an item of a library."""
        return [it for it in self.tests if library in self.imports[it]]

    def testing(self, library, item):
        """Returns the test crates that call a function of a library, or name its items and call a method of its name."""
        names = (full_name(item), f"{os.path.basename(item.path)[:-3]}::{item.name}")
        is_called = lambda crate: any(it in names for example in self.found[crate] for of, it in example.called if of == library)
        is_method = lambda crate: item.owner and library in self.imports[crate] and self.has_method(crate, item.name)
        return [it for it in self.tests if is_called(it) or is_method(it)]

    def has_method(self, crate, name):
        """Returns whether the code of a test crate has a call of a method of this name."""
        return any(re.search(rf"\.{name}\(", code) for code in self.code[crate])

    def example(self, library):
        """Returns the shortest function of the examples, or else of the tests, that calls one of a library; or None."""
        for crates in (*EXAMPLES, self.tests):
            found = [it for crate in crates if crate != library for it in self.found[crate]]
            found = [it for it in found if any(of == library for of, _ in it.called)]
            if found:
                return min(found, key=lambda it: (it.is_asked, len(it.lines), it.path, it.row))
        return None

    def examples_in(self, crate):
        """Returns the functions of a crate that call some of libraries."""
        found = []
        for path in self.paths_of(crate):
            text = self.texts.of(path)
            lines, imports = text.split("\n"), Imports(text, self.libraries, self.shown)
            for it in contracts.functions(self.texts, path):
                body = "\n".join(contracts.body_of(lines, it.row - 1))
                called = [self.called(imports, call) for call in CALL.finditer(body)]
                whole = contracts.text_of(lines, it.row - 1)
                found.append(Example(path, it.row, it.name, bool(it.trait), whole, list(dict.fromkeys(filter(None, called)))))
        return [it for it in found if it.called]

    def called(self, imports, call):
        """Returns the library and the name of what is called, or None where it is of no library."""
        return imports.method(call["name"], self.members) if call["dot"] else imports.item(call["name"], call["owner"])
