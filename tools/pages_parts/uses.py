"""What the `use` lines of a file name: the items of libraries, also where another library shows them."""
import re

USE = re.compile(r"^(?P<indent> *)(?P<shown>pub )?use (?P<tree>[^;]*);", re.M)


def paths_of(tree):
    """Yields the paths of a tree as `use` has it: `a::{b, c::d as e}` are `a::b` and `a::c::d`, each with its name here."""
    head, brace, rest = tree.partition("{")
    if not brace:
        path, _, name = tree.partition(" as ")
        yield path.strip().removesuffix("::self"), (name or path.removesuffix("::self").rsplit("::", 1)[-1]).strip()
        return
    for part in parts_of(rest.rpartition("}")[0]):
        yield from paths_of(head.strip() + part)


def parts_of(text):
    """Returns the parts of a list that commas part, but for those within braces."""
    made, depth = [""], 0
    for sign in text:
        depth += (sign == "{") - (sign == "}")
        if sign == "," and not depth:
            made.append("")
        else:
            made[-1] += sign
    return [it.strip() for it in made if it.strip()]


def uses_of(text, is_shown):
    """Yields the paths that the `use` lines of a file name, each with its name there: those that it shows to others, or all."""
    for found in USE.finditer(text):
        if found["shown"] or not is_shown:
            yield from paths_of(" ".join(found["tree"].split()))


def shown_by(texts, libraries):
    """Returns what libraries show of others: by the path under which they show it, the library and the item's name there."""
    found = {}
    for library in libraries:
        for path in texts.matching(rf"crates/{library}/src/.*\.rt"):
            inner = path.split("/", 3)[3].removesuffix(".rt").removesuffix("lib")
            module = "::".join([library, *filter(None, inner.split("/"))])
            for used, name in uses_of(texts.of(path), True):
                if used.split("::")[0] in libraries:
                    found[f"{module}::{name}"] = (used.split("::")[0], used.rsplit("::", 1)[-1])
    return found


class Imports:
    """What the names of a file mean: items of libraries, and modules in which libraries show such items."""

    def __init__(self, text, libraries, shown):
        self.shown, self.items, self.modules = shown, {}, {}
        for used, name in uses_of(text, False):
            if used in shown:
                self.items[name] = shown[used]
            elif any(it.startswith(f"{used}::") for it in shown):
                self.modules[name] = used
            elif used.split("::")[0] in libraries and "::" in used:
                self.items[name] = (used.split("::")[0], used.rsplit("::", 1)[-1])

    def item(self, name, owner):
        """Returns the library and the name of what a call names, which may stand after a module or a type; or None."""
        if not owner:
            return self.items.get(name)
        if owner in self.items:
            library, of = self.items[owner]
            return library, f"{of}::{name}"
        return self.shown.get(f"{self.modules.get(owner, '')}::{name}")

    def method(self, name, members):
        """Returns the library and the name of a method of what the file names, or None; the members of each are given."""
        found = (it for it in self.items.values() if name in members.get(it, ()))
        return next(((library, f"{of}::{name}") for library, of in found), None)
