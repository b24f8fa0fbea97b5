"""Tables of Markdown, and the rows that say what a file's definitions, types, functions and laws are."""
import os

from . import contracts, crates
from .texts import cell, comment_above, sentence


def table(heads, rows):
    """Returns a table of Markdown."""
    lines = [heads, ["---"] * len(heads), *([cell(it) for it in row] for row in rows)]
    return "".join(f"| {' | '.join(it)} |\n" for it in lines)


def link(path, page, shown=""):
    """Returns a link from a page to a file, named by its path within its crate, or as is said."""
    name = shown or path.split("/", 2)[2]
    return f"[`{name}`]({os.path.relpath(path, os.path.dirname(page))})"


def coded(names):
    """Returns names in backticks, each once."""
    return ", ".join(f"`{it}`" for it in dict.fromkeys(names))


def definitions_in(texts, path, page):
    """Yields the row of a file, and those of its definitions; those without a comment stand in one row, the last."""
    text, bare, head = texts.of(path), [], texts.head(path)
    yield link(path, page), f"*{head}*" if head else ""
    if path.endswith("Laws.antt"):
        # (lemmas alone)
        return
    for at, name in crates.defined(text):
        said = sentence(comment_above(text.split("\n"), at, path))
        if said and said != head:
            yield f"`{name}`", said
        else:
            bare.append(name)
    if bare:
        yield coded(bare), ""


def items_of(texts, path):
    """Returns the types, functions and laws of a file that others see, and the methods with clauses of their own."""
    functions = [it for it in contracts.functions(texts, path) if it.is_public or it.trait and it.clauses]
    return sorted([*functions, *contracts.types(texts, path), *contracts.laws(texts, path)], key=lambda it: it.row)


def contracts_in(texts, path):
    """Yields the rows of a file's types, functions and laws that say something."""
    for it in items_of(texts, path):
        said = contracts.told(it) or (f"As `{it.trait}` says, with clauses of its own" if it.trait else "")
        if said:
            yield f"`{full_name(it)}`", said, contract_of(it)
            yield from ((f"… `{it.name}`", note[:1].upper() + note[1:], f"`{label}`") for label, note in it.notes.items())
            yield from ((f"… `{it.name}`", remark, "") for remark in it.remarks)


def full_name(item):
    """Returns the name of a type, a function or a law, after that of what it is a member of."""
    return f"{item.owner}::{item.name}" if item.owner else item.name


def contract_of(item):
    """Returns the conditions of a function, and the labels of its clauses."""
    needs = f"needs {coded(item.needs)}" if item.needs else ""
    made = "; ".join(filter(None, (needs, clauses_of(item))))
    return "ghost" if item.is_ghost else f"law: {made}" if item.is_law and item.clauses else made


def clauses_of(item):
    """Returns the labels of a function's clauses, and how many have none."""
    bare = item.clauses - len(item.labels)
    if not item.labels:
        return "one clause" if bare == 1 else f"{bare} clauses" if bare else ""
    return coded(item.labels) + (f" and {bare} more" if bare else "")
