"""The command line of `tools/constants`."""
import argparse
import os

from . import known, rows, tables
from .sets import SETS, generated

ROOT = os.path.dirname(os.path.dirname(os.path.dirname(os.path.realpath(__file__))))
USAGE = f"""
Asks, with nothing but Python's standard library:

  of each table of {tables.CRATE}, in its definitions and in its code, that the round constants are those of the generator of
  the papers, and the diagonals those of {os.path.relpath(__file__, ROOT).replace("command", "sets")}
  of each set, that its cells, its S-box and its rounds are those that the generator was asked for
  of each line of {rows.PATH}, that the permutation by its matrices gives it
  of answers that were known before, that they come out; docs/POSEIDON2.md says what each confirms

It prints a row for each that is otherwise. The last line is 'N passed, M failed'. The exit status is 1 where anything failed."""


def main(words):
    """Runs the command and returns its exit status."""
    how = {"usage": "tools/constants [--write]", "formatter_class": argparse.RawDescriptionHelpFormatter}
    parser = argparse.ArgumentParser(description=USAGE, **how)
    parser.add_argument("--write", action="store_true", help="first write the numbers of the tables and the lines anew")
    if parser.parse_args(words).write:
        write()
    verdicts = [*of_tables(), *of_shapes(), *of_rows(), *((it.of, known.comes_out(it)) for it in known.ANSWERS)]
    for name, is_right in verdicts:
        if not is_right:
            print(f"FAILED    {name}")
    failed = sum(not is_right for _, is_right in verdicts)
    print(f"{len(verdicts) - failed} passed, {failed} failed")
    return 1 if failed else 0


def of_tables():
    """Yields for each table its name and whether it is right."""
    for it in SETS:
        for table in tables.tables(it, generated(it)):
            yield f"{table.path}: {table.name}", tables.numbers_of(table, text_of(table.path)) == table.numbers


def of_shapes():
    """Yields for each file of a set its name and whether its numbers of cells and rounds are right."""
    for it in SETS:
        for path, words in tables.shape(it):
            yield f"{path}: {words}", words in text_of(path)


def of_rows():
    """Yields for each line of states its name and whether the file has it at its place, and whether it has no others."""
    there = iter(text_of(rows.PATH).removeprefix(rows.HEAD).splitlines(keepends=True))
    for name, line in rows.lines():
        yield name, next(there, "") == line
    yield f"{rows.PATH}: no other lines", next(there, None) is None


def write():
    """Writes the numbers of the tables and the lines of states."""
    for it in SETS:
        for table in tables.tables(it, generated(it)):
            put(table.path, tables.written(table, text_of(table.path)))
    put(rows.PATH, rows.HEAD + "".join(line for _, line in rows.lines()))


def text_of(path):
    """Returns the text of a file of the repository, which is empty where there is none."""
    try:
        with open(f"{ROOT}/{path}", encoding="utf-8") as it:
            return it.read()
    except FileNotFoundError:
        return ""


def put(path, text):
    """Writes a file of the repository where its text is another."""
    if text != text_of(path):
        os.makedirs(os.path.dirname(f"{ROOT}/{path}"), exist_ok=True)
        with open(f"{ROOT}/{path}", "w", encoding="utf-8") as it:
            it.write(text)
