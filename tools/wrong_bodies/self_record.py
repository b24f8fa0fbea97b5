"""What the self test last passed on: a checksum of the files below tools/ and of the kit's logic, in `tools/wrong_bodies/SELF_TEST`."""
import os

from . import texts
from .kit import rtlib
from .record import OWN, logic

FILE = f"{OWN}/SELF_TEST"


def sum_of_tools():
    """Returns a checksum of all files below tools/ but the record, and of the kit's logic."""
    top, found = os.path.dirname(OWN), []
    for folder, folders, names in os.walk(top):
        folders[:] = [it for it in folders if it != "__pycache__"]
        for name in names:
            if f"{folder}/{name}" != FILE:
                with open(f"{folder}/{name}", "rb") as it:
                    found.append((os.path.relpath(f"{folder}/{name}", top), it.read()))
    return texts.sum_of((logic(), sorted(found)))


def is_recorded():
    """Returns whether the self test passed on the files that there are."""
    return (rtlib.text_of(FILE) or "").strip() == sum_of_tools()


def write():
    """Notes that the self test passed on the files that there are."""
    with open(FILE, "w", encoding="utf-8") as it:
        it.write(f"{sum_of_tools()}\n")
