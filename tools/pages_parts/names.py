"""Whether the names in a page's tables and lists are there: clauses, functions, definitions, files and crates."""
import fnmatch
import os
import re

from . import contracts
from .regions import by_hand

CODE = re.compile(r"`(?P<code>[^`\n]+)`")
FENCE = re.compile(r"^[ \t]*```.*?^[ \t]*```[ \t]*$", re.M | re.S)
FILE = re.compile(r"[\w./*-]+\.(?:rt|antt|txt|toml|edit|tsv|hex|md|py)")
# A name of many, such as `specs/XLaws.antt`, or `wrong-bodies/EDIT.edit`.
ANY = re.compile(r"(?:^|/)X(?:[A-Z]\w*)?\.|(?:^|/)(?:NAME|FILE|FUNCTION|EDIT)\b")
PATH = re.compile(r"[A-Za-z_][\w-]*(?:::[A-Za-z_]\w*)*")
# A function with the labels of some of its clauses, as tables write it.
CITED = re.compile(r"`(?P<name>[\w:]+)`: (?P<labels>`[a-z]\w*`(?:, (?:and )?`[a-z]\w*`)*)")
COMMENT = {".rt": re.compile(r"//[^\n]*"), ".antt": re.compile(r"--[^\n]*")}
# Names of things elsewhere: a word of JSON, other crates, the sum of the kit's logic, an error of the compiler; and names that no crate has.
ELSEWHERE = re.compile(r"null|p3-challenger|tiny-keccak|[0-9a-f]{16}|linear-value-let-go|p3_challenger_adapters|p3_fs_drivers")
WORD = re.compile(r"[A-Za-z_][\w'-]*[\w']|[A-Za-z_]")


class Names:
    """The names that a repository has."""

    def __init__(self, texts, every):
        self.texts, self.files = texts, texts.files
        self.words = {it.name for it in every} | {name for it in every for name in it.kit}
        self.clauses = set()
        for path in texts.matching(r"(?:crates|tools)/.*\.(?:rt|antt)"):
            code = COMMENT[os.path.splitext(path)[1]].sub("", texts.of(path))
            self.words.update(word for found in WORD.findall(code) for word in {found, *re.findall(r"\w+", found)})
        for path in texts.matching(r"crates/\w+/(?:src/)?.*\.rt"):
            for it in contracts.functions(texts, path):
                self.clauses.update((it.name, label) for label in (*it.conditions, *it.labels))
        self.words.update(part for path in self.files for part in re.split(r"[/.]", path))

    def faults(self, page):
        """Returns how many names a page has by hand, and a row for each that is not there."""
        text = FENCE.sub(lambda it: re.sub(r"[^\n]", " ", it[0]), by_hand(self.texts.of(page)))
        seen, wrong = 0, []
        for found in CODE.finditer(text):
            fault = self.fault(found["code"])
            seen += 1
            wrong += [f"`{found['code']}`: {fault}"] if fault else []
        for found in CITED.finditer(text):
            name = found["name"].rsplit("::")[-1]
            if not any(it == name for it, _ in self.clauses):
                continue
            for label in re.findall(r"`(\w+)`", found["labels"]):
                seen += 1
                if (name, label) not in self.clauses:
                    wrong.append(f"`{name}`: `{label}`: the function has no such clause")
        return seen, wrong

    def fault(self, code):
        """Returns why a name is not there, or None where it is, or is no name."""
        if FILE.fullmatch(code) and not ANY.search(code):
            there = any(fnmatch.fnmatch(f"/{it}", f"*/{code.lstrip('./')}") for it in self.files)
            return None if there else "there is no such file"
        path = re.sub(r"<[^<>]*>|\(.*\)$", "", re.sub(r"<[^<>]*>", "", code))
        if not PATH.fullmatch(path) or path.startswith("std::") or ELSEWHERE.fullmatch(path):
            return None
        gone = [it for it in path.split("::") if len(it) > 1 and it not in self.words]
        return f"no code, specification or proof has the name {gone[0]}" if gone else None
