"""A crate's functions, constants and ghost members: where each stands in the text, and the names that a check gives it."""
import re

from .edits import BadEdit
from .impl_names import ImplNames
from .kit import bodies


class Item:
    """A function, a constant or a ghost member, and where it begins, where its head ends, its body begins and it ends, in characters."""

    def __init__(self, file, name, module, block):
        self.file, self.name, self.module, self.block = file, name, list(module), block
        self.begin = self.head = self.body = self.end = 0
        # The cycle of calls that it is in, where it names one.
        self.cycle = None
        # Of a method of an impl of a trait, what a check calls the impl.
        self.impl_names = None
        self.is_constant = False
        # Whether it is a ghost member of an impl: a law, or a definition.
        self.is_ghost = False

    def owner(self):
        """Returns the name of the type or trait that it belongs to, or an empty text."""
        if not self.block:
            return ""
        return self.block.trait[0] if self.block.is_trait else bodies.named(self.block.ty)[0]

    def shown(self):
        """Returns its name as a reader knows it."""
        if not self.block:
            return "::".join([*self.module[-1:], self.name])
        owner = bodies.written(self.block.ty)
        if self.block.trait and not self.block.is_trait:
            return f"<{owner} as {bodies.written(self.block.trait)}>::{self.name}"
        return f"{self.owner() or owner}::{self.name}"

    def is_changed_within(self, change):
        """Returns whether a change is one of the body alone, or puts another body before it."""
        is_new_body = self.head <= change.start and change.end < self.body and change.text.lstrip().startswith("{")
        return not self.is_constant and (change.start >= self.body or is_new_body)

    def spellings(self):
        """Returns the texts that may stand after `refused at:` for it."""
        short = [*[self.owner()] * bool(self.owner()), self.name]
        paths = [[*self.module[at:], *short] for at in range(len(self.module) + 1)]
        return {self.name, self.shown().replace(" ", ""), *("::".join(it) for it in paths)}

    def misfit(self, path):
        """Returns how far the path of a proof, as [module, owner, name], is from this one: 0 is exact, and None no fit."""
        if self.cycle and path[-1] == f"+{self.cycle}":
            return 0
        if path[-1] not in (self.name, f"+{self.name}") and not path[-1].startswith(f"{self.name}+"):
            return None
        owner = path[:-1]
        if not self.block:
            return 0 if owner == self.module else None
        if not owner:
            return None
        if self.block.trait and not self.block.is_trait:
            return self.impl_names.misfit(owner[-1]) if owner[:-1] == self.module else None
        if owner[-1].partition("+")[0] != self.owner():
            return None
        # what a type has of its own stands below the type's module, which need not be the file's
        is_above = owner[:-1] == self.module[: len(owner) - 1]
        return len(self.module) - len(owner) + 1 if is_above else 10


class Texts:
    """The texts of a crate's folder, each read once."""

    def __init__(self, folder):
        self.folder, self.known = folder, {}

    def __call__(self, file):
        """Returns the file's text, or None where there is no such file."""
        if file not in self.known:
            try:
                with open(f"{self.folder}/{file}", encoding="utf-8") as it:
                    self.known[file] = it.read()
            except OSError:
                self.known[file] = None
        return self.known[file]


class Functions:
    """The functions and constants of a crate's source, and the ghost members of its impls."""

    def __init__(self, folder, is_program):
        self.text_of = Texts(folder)
        source = bodies.Source(folder)
        source.read("src/main.rt" if is_program else "src/lib.rt")
        self.items = [self.function(it) for it in source.functions if it.has_body]
        # (no edit is one of a ghost member: it is of what rests on it, or of the function in which it is refused)
        self.ghosts = []
        for file in source.data:
            rows, data = source.tokens(file)
            self.ghosts += self.ghost_members(source, file, rows, data)
            rows = [it for it in rows if it[3] in ("Code", "Literal", "Head")]
            self.items += self.constants(source, file, rows, data)
            for it in self.items:
                if it.file == file and it.block and it.block.trait and not it.block.is_trait:
                    it.impl_names = ImplNames(it.block, rows)

    def function(self, it):
        """Returns the item of a function that the kit's reader found."""
        made = Item(it.file, it.name, it.module, it.block)
        data = self.text_of(it.file).encode()
        made.begin, made.body, made.end = (len(data[:at].decode()) for at in (it.first, it.opens + 1, it.end))
        made.head = len(data[: it.opens].decode().rstrip())
        cycle = re.search(r"#\[cycle\((\w+)\)\]", self.text_of(it.file)[made.begin : made.body])
        made.cycle = cycle[1] if cycle else None
        return made

    def constants(self, source, file, rows, data):
        """Returns the constants of a file, given by its tokens, that stand in no function."""
        words, found = [it[4] for it in rows], []
        for at in range(len(words) - 2):
            # (behind < or a comma it is a parameter)
            if words[at] != "const" or words[at + 2] != ":" or words[at - 1 : at] in (["<"], [","]):
                continue
            first, last = rows[at][1], rows[end_of_constant(words, at)][2]
            first -= len(re.search(rb"(?:pub(?:\([^)]*\))?\s+)?\Z", data[:first])[0])
            blocks = (it.block for it in source.functions if it.file == file and it.block)
            block = next((it for it in blocks if it.span[0] <= first < it.span[1]), None)
            made = Item(file, words[at + 1], module_of(file), block)
            made.begin, made.end = len(data[:first].decode()), len(data[:last].decode())
            made.is_constant = True
            if not any(it.file == file and it.begin <= made.begin < it.end for it in self.items if not it.is_constant):
                found.append(made)
        return found

    def ghost_members(self, source, file, rows, data):
        """Returns the ghost members that the impls of a file give, by its tokens, but of impls that have no function."""
        blocks = {it.block for it in source.functions if it.file == file and it.block and not it.block.is_trait}
        found = []
        for at in range(len(rows) - 3):
            head = [it[4] for it in rows[at : at + 4] if it[3] == "Head"]
            block = next((it for it in blocks if it.span[0] <= rows[at][1] < it.span[1]), None)
            if not block or len(head) < 4 or head[0] != "ghost" or head[2:] != ["=", "{"]:
                continue
            last = next(it for it in rows[at:] if it[3] == "End")[2]
            made = Item(file, head[1], module_of(file), block)
            made.begin, made.end = len(data[: rows[at][1]].decode()), len(data[:last].decode())
            made.is_ghost = True
            found.append(made)
        return found

    def holding(self, file, start, end):
        """Returns the innermost item that holds this stretch of a file, or None."""
        found = [it for it in self.items if it.file == file and it.begin <= start < it.end and end <= it.end]
        return min(found, key=lambda it: it.end - it.begin, default=None)

    def of_path(self, path):
        """Returns the items that the path of a proof may mean, as [module, owner, name]."""
        found = self.nearest(path)
        if found or "fn" not in path:
            return found
        # the proof of a closure stands below `fn`, and its name behind that of the function
        plain = [it for it in path if it != "fn"]
        shorter = (self.nearest(plain[:length]) for length in range(len(plain) - 1, 0, -1))
        return next((it for it in shorter if it), [])

    def nearest(self, path):
        """Returns the items that fit the path best."""
        fits = [(it.misfit(path), it) for it in self.items]
        least = min((far for far, _ in fits if far is not None), default=None)
        return [it for far, it in fits if far is not None and far == least]

    def symbols(self, names):
        """Returns, by item, what a check calls it below the crate, from the names of the crate's functions."""
        found = {}
        for path in (it.split("::")[1:] for it in names):
            items = self.nearest(path)
            if len(items) == 1:
                found[items[0]] = "::".join(path)
        return found

    def called(self, name):
        """Returns the one item that `refused at:` names: a function or a constant, or else a ghost member."""
        named = lambda items: [it for it in items if name.replace(" ", "") in it.spellings()]
        found = named(self.items) or named(self.ghosts)
        if len(found) == 1:
            return found[0]
        if not found:
            raise BadEdit(f"'refused at: {name}' names no function and no ghost member of the crate")
        all_of_them = ", ".join(it.shown() for it in found)
        raise BadEdit(f"'refused at: {name}' may be any of {all_of_them}: write more of the name")

    def place(self, edit):
        """Finds what an edit changes, and where it has to be refused."""
        for file, changes in edit.changes.items():
            for it in changes:
                item = self.holding(file, it.start, it.end) if file.endswith(".rt") else None
                if item and item not in edit.functions:
                    edit.functions.append(item)
                # (a body is all that other functions do not see)
                edit.is_apart = edit.is_apart or not item or not item.is_changed_within(it)
        try:
            edit.judges = [self.called(it) for it in edit.callers] or edit.functions
            if not edit.judges:
                raise BadEdit("it changes no function: say by 'refused at: NAME' which function has to refuse it")
        except BadEdit as error:
            edit.why = str(error)
        edit.is_apart = edit.is_apart or bool(edit.callers)


def module_of(file):
    """Returns the module that a source file is, as a list of names."""
    parts = re.sub(r"\.rt$", "", file).split("/")[1:]
    return parts[:-1] if parts[-1] in ("lib", "main", "mod") else parts


def end_of_constant(words, at):
    """Returns the place of the ; that ends a constant's item."""
    depth = 0
    # (the type may have a ; in brackets, and the value a < that opens nothing)
    for place in range(at, len(words)):
        depth += (words[place] in ("(", "[", "{")) - (words[place] in (")", "]", "}"))
        if words[place] == ";" and depth == 0:
            return place
    return len(words) - 1
