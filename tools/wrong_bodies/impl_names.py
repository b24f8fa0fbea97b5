"""What a check calls an impl of a trait, which has no name in code.

It joins the words of the type, the trait and the trait's arguments, and leaves out the impl's own parameters: `impl Rank for
&u8` is RefU8Rank. Where that names nothing, or two would have one name, each parameter is written Any, and the trait's module
adds its word. An argument that the trait has by default is left out, and of Drop the type's name alone is left.
"""
import re

from .kit import bodies


class ImplNames:
    """The names that a check may give one impl, in small letters."""

    def __init__(self, block, rows):
        parameters = parameters_of(block, rows)
        trait, arguments = after_path(block.trait)
        types = [joined(block.ty, parameters, it) for it in ("", "any")]
        ends = [plain(trait) + joined(arguments, parameters, it) for it in ("", "any")]
        # Each is how far from exact it is, the word of the type, and what stands behind that.
        self.parts = [(0, ty, end) for ty in types for end in ends]
        self.parts += [(1, ty, plain(trait) if trait != "Drop" else "") for ty in types]

    def misfit(self, name):
        """Returns how far a check's name for an impl is from these: 0 is exact, and None no fit."""
        name, found = plain(name.partition("+")[0]), []
        for far, ty, rest in self.parts:
            for end in (rest, f"{rest}impl"):
                if name.startswith(ty) and name[len(ty) :].endswith(end) and (end or name == ty):
                    found.append(far + len(name) - len(ty) - len(rest))
        return min(found, default=None)


def plain(word):
    """Returns a word as a check's names have it, but in small letters."""
    return word.replace("_", "").lower()


def after_path(words):
    """Returns the last name of a path and the words behind it: of io::Write<T> these are Write and <T>."""
    end = words.index("<") if "<" in words else len(words)
    return words[end - 1], words[end:]


def parameters_of(block, rows):
    """Returns the names of an impl's parameters, from the tokens of its file."""
    words = [it[4] for it in rows]
    opens = next((at for at, it in enumerate(rows) if it[1] == block.span[0]), 0)
    begin = next((at for at in range(opens, -1, -1) if words[at] == "impl"), None)
    if begin is None or words[begin + 1] != "<":
        return set()
    parts = map(bodies.without_attributes, bodies.split(words[begin + 2 : bodies.after(words, begin + 1) - 1]))
    return {it[it[0] == "const"] for it in parts if not it[0].startswith("'")}


def joined(words, parameters, instead):
    """Returns the words of a type in one, with what stands instead of each parameter."""
    made = ""
    for at, word in enumerate(words):
        if word == "&":
            made += "ref"
        elif word == "[":
            made += "array" if words[bodies.until(words, at + 1, ";", "]")] == ";" else "slice"
        elif word == "(":
            parts = bodies.split(words[at + 1 : bodies.after(words, at) - 1])
            made += f"tuple{len(parts)}" if parts else "unit"
        elif word in parameters:
            made += instead
        elif re.match(r"\w", word) and words[at + 1 : at + 3] != [":", ":"]:
            made += plain(word)
    return made
