"""The files of a repository, as `tools/pages` reads them: those that git knows or would add, and the comments in them."""
import functools
import os
import re
import subprocess

# A comment line at the beginning of a file or above an item, by the ending of the file.
COMMENTS = {".rt": r"//[/!]?", ".antt": r"--", ".txt": r"#"}
# A link of a doc comment: its text alone stays.
LINK = re.compile(r"\[(?P<text>`[^`]+`|[^\]\[]+)\](?:\([^)]*\))?")
# Where a sentence ends: a stop, and then a word that begins one; or the shape of a file's lines, in capitals.
STOP = re.compile(r"(?<=[^.][.?])\s+(?=[A-Z`\[*])|:\s+(?=[A-Z]{2,}\b)")


class Texts:
    """A repository: its files by their paths from its top, and what they say."""

    def __init__(self, root):
        words = ["git", "ls-files", "-z", "--cached", "--others", "--exclude-standard"]
        said = subprocess.run(words, cwd=root, stdout=subprocess.PIPE, check=True).stdout
        names = said.decode("utf-8", "surrogateescape").split("\0")
        self.root, self.files = root, sorted({it for it in names if it and os.path.isfile(f"{root}/{it}")})
        self.of = functools.lru_cache(maxsize=None)(self.read)

    def read(self, path):
        """Returns the text of a file."""
        with open(f"{self.root}/{path}", encoding="utf-8", errors="replace") as it:
            return it.read()

    def matching(self, pattern):
        """Returns the paths that a pattern matches whole, in order."""
        return [it for it in self.files if re.fullmatch(pattern, it)]

    def head(self, path):
        """Returns the first sentence of a file: of the comment that it begins with, or else of the first one above an item."""
        return sentence(self.opening(path))

    def opening(self, path):
        """Returns the first paragraph of a file: of the comment that it begins with, or else of the first one above an item."""
        lines = self.of(path).split("\n")
        first = next((at for at, line in enumerate(lines) if words_of(line, path) is not None), None)
        return comment_from(lines, first, path) if first is not None else ""


def words_of(line, path):
    """Returns what a line says if it is a comment, or None."""
    found = re.fullmatch(rf"\s*(?:{COMMENTS[os.path.splitext(path)[1]]})(?:\s(.*))?", line)
    return (found[1] or "").strip() if found else None


def comment_from(lines, at, path):
    """Returns the paragraph of a comment that begins at a line."""
    said = []
    for line in lines[at:]:
        words = words_of(line, path)
        if not words:
            break
        said.append(words)
    return " ".join(said)


def comment_above(lines, at, path):
    """Returns the first paragraph of the comment that ends above a line; attributes may stand between."""
    first = at
    while first > 0 and (words_of(lines[first - 1], path) is not None or re.match(r"\s*#!?\[", lines[first - 1])):
        first -= 1
    while first < at and not words_of(lines[first], path):
        first += 1
    said = comment_from(lines, first, path)
    return "" if said.startswith("----") else said


def sentence(text):
    """Returns the first sentence of a paragraph, without its last stop."""
    text = plain(text)
    ends = [it.start() for it in STOP.finditer(text)]
    end = next((it for it in ends if text[: it].count("`") % 2 == 0), len(text))
    return text[:end].strip().rstrip(".:")


def plain(text):
    """Returns the text of a doc comment without its links, which lead nowhere from a page."""
    return LINK.sub(lambda it: it["text"] if it["text"].startswith("`") or "](" in it[0] else it[0], text).strip()


def cell(text):
    """Returns a text as a cell of a table has it."""
    return text.replace("|", "\\|").strip()
