"""Numbers that pages say of the repository, in the words around them."""
import re

STEPS = "crates/p3_script/src/steps.rt"
RUST = "Rust crate p3-challenger 0.8.0 itself"
BY_HAND = "written by hand"
# The lines that a file of rows begins with.
HEAD = re.compile(r"(?:#[^\n]*\n)*")
# The words around a number, by what it counts. A page that has the words has the number.
PHRASES = {
    "kinds": re.compile(r"\b(?P<number>[\d,]+)(?=\s+kinds\b)"),
    "edits": re.compile(r"\b(?P<number>[\d,]+)(?=\s+wrong\s+bodies\s+\(mutants\)\s+are\s+on\s+file)"),
    "calls": re.compile(r"\b(?P<number>[\d,]+)(?=\s+calls\s+and\s+[\d,]+\s+scripts\s+were\s+made\s+on\s+the\s+Rust\s+crate)"),
    "scripts": re.compile(r"\b(?P<number>[\d,]+)(?=\s+scripts\s+were\s+made\s+on\s+the\s+Rust\s+crate)"),
}


class Counts:
    """What is counted, each when it is first asked for."""

    def __init__(self, texts):
        self.texts = texts

    def number(self, what):
        """Returns a number as pages write it."""
        return f"{getattr(self, what)():,}"

    def kinds(self):
        """Returns how many kinds of steps a script has."""
        found = re.search(r"^pub enum Step\b.*?^\}", self.texts.of(STEPS), re.M | re.S)
        return len(re.findall(r"^    [A-Z]\w*", found[0], re.M))

    def edits(self):
        """Returns how many wrong bodies are on file."""
        return len(self.texts.matching(r"crates/\w+/wrong-bodies/[^/]*\.edit"))

    def calls(self):
        """Returns how many calls were made on the Rust crate: those of the files whose first lines say so."""
        said = self.texts.of("crates/conformance/stdout")
        rows = dict(re.findall(r"^(\w+): \d+ lines, (\d+) calls", said, re.M))
        heads = {name: HEAD.match(self.texts.of(f"crates/conformance/data/{name}.txt"))[0] for name in rows}
        return sum(int(rows[name]) for name, head in heads.items() if RUST in head)

    def scripts(self):
        """Returns how many scripts were played with the Rust crate: the lines of those files, up to what was written by hand."""
        paths = self.texts.matching(r"crates/conformance_(?:runs|suites)/data/\w+\.txt")
        return sum(lines_of_rust(self.texts.of(it)) for it in paths)

    def written(self, text):
        """Returns a page with these numbers, how many it has, and a row for each that was another."""
        seen, wrong = 0, []
        for what, pattern in PHRASES.items():
            for found in reversed(list(pattern.finditer(text))):
                number = self.number(what)
                seen += 1
                if found["number"] != number:
                    wrong.append(f"{found['number']} {what}: there are {number}")
                    text = text[: found.start("number")] + number + text[found.end("number") :]
        return text, seen, wrong


def lines_of_rust(text):
    """Returns how many lines of a file have answers of the Rust crate itself."""
    head = HEAD.match(text)[0]
    if RUST not in head:
        return 0
    rest = text[len(head) :].split("\n")
    end = next((at for at, line in enumerate(rest) if line.startswith("#") and BY_HAND in line), len(rest))
    return sum(bool(it) and not it.startswith("#") for it in rest[:end])
