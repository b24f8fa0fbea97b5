"""The six sets of constants."""
import collections

from .grain import Grain

BABY_BEAR, KOALA_BEAR, GOLDILOCKS = 2**31 - 2**27 + 1, 2**31 - 2**24 + 1, 2**64 - 2**32 + 1
EXTERNAL = 8

# A set: the name of its modules, its type, the order and its bits, how many cells, the S-box's power, how many internal rounds,
# and what is added to 1 on the diagonal of the internal matrix.
Set = collections.namedtuple("Set", "name type order bits width degree internal diagonal")
# The constants of a set: a list of numbers, and for external rounds a list of such lists.
Constants = collections.namedtuple("Constants", "diagonal initial internal terminal")


def parts(order, words):
    """Returns the elements that words as `-3` and `1/2^8` are."""
    found = []
    for word in words.split():
        above, _, power = word.partition("/2^")
        found.append(int(above) * pow(pow(2, int(power or 0), order), -1, order) % order)
    return found


BABY_BEAR_16 = "-2 1 2 1/2^1 3 4 -1/2^1 -3 -4 1/2^8 1/2^2 1/2^3 1/2^27 -1/2^8 -1/2^4 -1/2^27"
BABY_BEAR_24 = (
    "-2 1 2 1/2^1 3 4 -1/2^1 -3 -4 1/2^8 1/2^2 1/2^3 1/2^4 1/2^7 1/2^9 1/2^27"
    " -1/2^8 -1/2^2 -1/2^3 -1/2^4 -1/2^5 -1/2^6 -1/2^7 -1/2^27"
)
KOALA_BEAR_16 = "-2 1 2 1/2^1 3 4 -1/2^1 -3 -4 1/2^8 1/2^3 1/2^24 -1/2^8 -1/2^3 -1/2^4 -1/2^24"
KOALA_BEAR_24 = (
    "-2 1 2 1/2^1 3 4 -1/2^1 -3 -4 1/2^8 1/2^2 1/2^3 1/2^4 1/2^5 1/2^6 1/2^24"
    " -1/2^8 -1/2^3 -1/2^4 -1/2^5 -1/2^6 -1/2^7 -1/2^9 -1/2^24"
)
GOLDILOCKS_8 = [
    0xA98811A1FED4E3A5, 0x1CC48B54F377E2A0, 0xE40CD4F6C5609A26, 0x11DE79EBCA97A4A3,
    0x9177C73D8B7E929C, 0x2A6FE8085797E791, 0x3DE6E93329F8D5AD, 0x3F7AF9125DA962FE,
]
GOLDILOCKS_12 = [
    0xC3B6C08E23BA9300, 0xD84B5DE94A324FB6, 0x0D0C371C5B35B84F, 0x7964F570E7188037,
    0x5DAF18BBD996604B, 0x6743BC47B9595257, 0x5528B9362C59BB70, 0xAC45E25B7127B68B,
    0xA2077D7DFBB606B5, 0xF3FAAC6FAEE378AE, 0x0C6388B51545E883, 0xD27DBB6944917B60,
]
SETS = (
    Set("baby_bear_16", "BabyBear", BABY_BEAR, 31, 16, 7, 13, parts(BABY_BEAR, BABY_BEAR_16)),
    Set("baby_bear_24", "BabyBear", BABY_BEAR, 31, 24, 7, 21, parts(BABY_BEAR, BABY_BEAR_24)),
    Set("koala_bear_16", "KoalaBear", KOALA_BEAR, 31, 16, 3, 20, parts(KOALA_BEAR, KOALA_BEAR_16)),
    Set("koala_bear_24", "KoalaBear", KOALA_BEAR, 31, 24, 3, 23, parts(KOALA_BEAR, KOALA_BEAR_24)),
    Set("goldilocks_8", "Goldilocks", GOLDILOCKS, 64, 8, 7, 22, GOLDILOCKS_8),
    Set("goldilocks_12", "Goldilocks", GOLDILOCKS, 64, 12, 7, 22, GOLDILOCKS_12),
)


def generated(it):
    """Returns the constants of a set: the generator gives the first external rounds, the internal ones and the last external ones."""
    grain = Grain(it.bits, it.width, EXTERNAL, it.internal)
    return drawn(it, lambda: grain.number(it.bits, it.order), is_internal_last=False)


def drawn(it, draw, is_internal_last):
    """Returns the constants of a set that are drawn one after another, the internal ones in the middle or last."""
    initial = [[draw() for _ in range(it.width)] for _ in range(EXTERNAL // 2)]
    internal = [] if is_internal_last else [draw() for _ in range(it.internal)]
    terminal = [[draw() for _ in range(it.width)] for _ in range(EXTERNAL // 2)]
    internal = internal or [draw() for _ in range(it.internal)]
    return Constants(it.diagonal, initial, internal, terminal)
