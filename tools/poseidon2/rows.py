"""States of each set, and what its permutation makes of them: the lines of `poseidon2_answers`."""
import hashlib

from .permutation import permuted
from .sets import SETS, generated

PATH = "crates/poseidon2_answers/data/states.txt"
# How many states that are strewn over the field a set has, beside the cells 0, 1, 2, ..
COUNT = 100
HEAD = """# What Poseidon2 makes of states: SET | CELLS | ANSWER. A set is that of the module of this name in p3_poseidon2.
# Written by `tools/constants --write`, which multiplies by the whole matrices. Of each set the first state is 0, 1, 2, ..;
# the others are of SHA-256: cell I of state N of SET is the digest of `SET N I` as a number, modulo the order.
"""


def state(it, number):
    """Returns the cells of a state of a set by its number."""
    if number == 0:
        return list(range(it.width))
    words = (f"{it.name} {number} {place}" for place in range(it.width))
    return [int.from_bytes(hashlib.sha256(word.encode()).digest(), "big") % it.order for word in words]


def lines():
    """Yields the lines of the file, each with a name."""
    for it in SETS:
        constants = generated(it)
        for number in range(COUNT + 1):
            cells = state(it, number)
            told = (" ".join(map(str, row)) for row in (cells, permuted(it, constants, cells)))
            yield f"{it.name}, state {number}", f"{it.name} | {' | '.join(told)}\n"
