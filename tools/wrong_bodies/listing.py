"""The list of all edits: what each does, in the words of its line `what: ..`."""
import os

from .edits import BadEdit, parsed

FOLDERS = ("wrong-bodies", "must-fail")


def lines(crates):
    """Returns the list as a page: for each crate its edits, the files that they change, and what they do."""
    made = []
    for crate in crates:
        rows = [row(f"{crate.folder}/{folder}/{it}", folder) for folder in FOLDERS for it in edits_in(f"{crate.folder}/{folder}")]
        if rows:
            made += ["", f"{crate.name}: {len(rows)}", *sorted(rows)]
    return made[1:]


def edits_in(folder):
    """Returns the names of the edit files in a folder, none where there is no such folder."""
    return [it for it in os.listdir(folder) if it.endswith(".edit")] if os.path.isdir(folder) else []


def row(path, folder):
    """Returns a line on one edit."""
    name = os.path.basename(path).removesuffix(".edit")
    with open(path, encoding="utf-8") as it:
        text = it.read()
    what = next((it[len("what: ") :].strip() for it in text.split("\n") if it.startswith("what: ")), "(its file has no line `what: ..`)")
    try:
        files = ", ".join(dict.fromkeys(it.file for it in parsed(text)[0]))
    except BadEdit as error:
        files = str(error)
    return f"  {name} | {files} | {what}{' (in must-fail/)' * (folder == 'must-fail')}"
