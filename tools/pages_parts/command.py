"""The command line of `tools/pages`."""
import argparse
import os
import re

from .counts import Counts
from .names import Names
from .readme import Readmes
from .regions import Broken, by_hand, regions_of, written
from .tables import Tables
from .texts import Texts

ROOT = os.path.dirname(os.path.dirname(os.path.dirname(os.path.realpath(__file__))))
# Pages of which each name in backticks has to be there.
NAMED = re.compile(r"(?:README|SECURITY|docs/(?:DECISIONS|DEFINITIONS|MAP|PROMISES|TEALMUZE|VECTORS|WRONG_BODIES))\.md")
# Pages that tell what was on some day, whose numbers stay.
DATED = re.compile(r"CHANGELOG\.md|docs/reports/.*")
USAGE = """
Writes what pages say that the repository says already, between two comments of a page:

  <!-- written by tools/pages: NAME -->
  <!-- end -->

  crates        the crates, what each does, and what it stands on: crates.txt and the first lines of lib.rt and main.rt
  layers        the crates in lines, each of those that stand on the lines before, and the longest chain
  contracts     how many types, functions, laws, clauses and definitions each library has
  files         the files of code and definitions of each crate without a page, by their first lines and the names that they show
  lemmas        the files of proofs/ of these crates, by their first lines
  definitions   the definitions of these crates, by the comment above each
  data          the files of data/, by their first lines
  edits         how many wrong bodies each crate has

And it writes a page for each library, which no one else does: crates/NAME/README.md. A library is a crate with a lib.rt that
crates.txt has not under tests. The page has what lib.rt says; the crates below and above; the public functions, with what their
doc comments say and their clauses; the definitions; what is proved, what only tested; an example; and the other files.

Without an option it changes nothing and asks: that each region and each of these pages is what it would write; that each number
of kinds of steps, wrong bodies, and calls and scripts of the Rust crate, is what is there; and that each name in backticks in the
text by hand of README, SECURITY, DECISIONS, DEFINITIONS, MAP, PROMISES, TEALMUZE, VECTORS and WRONG_BODIES is that of some code,
clause or file.

It prints a row for each that is not so. The last line is 'N passed, M failed'. The exit status is 1 where anything failed."""


def main():
    """Runs the command and returns its exit status."""
    how = {"usage": "tools/pages [--write | --words]", "formatter_class": argparse.RawDescriptionHelpFormatter}
    parser = argparse.ArgumentParser(description=USAGE, **how)
    options = parser.add_mutually_exclusive_group()
    options.add_argument("--write", action="store_true", help="write the regions and the numbers first")
    options.add_argument("--words", action="store_true", help="print how many words of each page are by hand, and how many written")
    given = parser.parse_args()
    if given.words:
        return print_words(Texts(ROOT))
    if given.write:
        rewrite(Texts(ROOT))
    return check(Texts(ROOT))


def pages_of(texts, without=()):
    """Returns the pages, but for those that are left out."""
    return [it for it in texts.matching(r".*\.md") if it not in without]


def rewrite(texts):
    """Writes the pages of libraries, and the regions and the numbers of each other page."""
    tables, counts = Tables(texts), Counts(texts)
    whole = Readmes(texts, tables.every).pages()
    for page, made in whole.items():
        write(texts, page, made)
    for page in pages_of(texts, whole):
        try:
            made, _ = written(texts.of(page), tables.writers())
        except Broken:
            # (the check says it)
            continue
        if not DATED.fullmatch(page):
            made, _, _ = counts.written(made)
        write(texts, page, made)


def write(texts, page, made):
    """Writes a page where it is not there as it is made."""
    if page not in texts.files or made != texts.of(page):
        with open(f"{texts.root}/{page}", "w", encoding="utf-8") as it:
            it.write(made)
        print(f"written   {page}")


def check(texts):
    """Checks each page, and returns the exit status."""
    tables, counts, passed, rows = Tables(texts), Counts(texts), 0, []
    names, whole = Names(texts, tables.every), Readmes(texts, tables.every).pages()
    found = [(page, of_library(texts, page, made)) for page, made in whole.items()]
    for page in pages_of(texts, whole):
        parts = (of_regions(texts.of(page), tables.writers()), of_numbers(texts, page, counts), of_names(page, names))
        found += [(page, it) for it in parts]
    for page, (seen, wrong) in found:
        passed += seen - len(wrong)
        rows += [f"FAILED    {page}: {it}" for it in wrong]
    print("".join(f"{it}\n" for it in rows), end="")
    print(f"{passed} passed, {len(rows)} failed")
    return 1 if rows or not passed else 0


def of_library(texts, page, made):
    """Returns that a library has a page, and a row where it is missing or another."""
    if page not in texts.files:
        return 1, ["there is no such page: `tools/pages --write` writes it"]
    return 1, [] if made == texts.of(page) else ["the page is not what `tools/pages --write` writes"]


def of_regions(text, writers):
    """Returns how many regions a page has, and a row for each that is not what is written."""
    try:
        _, changed = written(text, writers)
    except Broken as error:
        return 1, [str(error)]
    return len(regions_of(text)), [f"the region {it} is not what `tools/pages --write` writes" for it in changed]


def of_numbers(texts, page, counts):
    """Returns how many numbers a page has, and a row for each that is another."""
    _, seen, wrong = counts.written(texts.of(page)) if not DATED.fullmatch(page) else ("", 0, [])
    return seen, wrong


def of_names(page, names):
    """Returns how many names a page has, and a row for each that is not there."""
    try:
        return names.faults(page) if NAMED.fullmatch(page) else (0, [])
    except Broken:
        return 0, []


def print_words(texts):
    """Prints how many words each page has, and returns the exit status."""
    sums = [0, 0]
    for page in pages_of(texts):
        hand = len(by_hand(texts.of(page)).split())
        rest = len(texts.of(page).split()) - hand
        sums = [sums[0] + hand, sums[1] + rest]
        print(f"{hand:8,} by hand {rest:8,} written  {page}")
    print(f"{sums[0]:8,} by hand {sums[1]:8,} written  all")
    return 0
