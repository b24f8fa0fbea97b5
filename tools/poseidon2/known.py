"""Answers that were known before they were computed here: of which permutation, and what it makes of which cells."""
import collections

from .permutation import CIRCULANT, OF_THE_AUTHORS, permuted
from .sets import SETS, drawn, generated

# An answer: what it is of, the name of the set, whether its round constants are the generator's, its M_4, and the cells.
Answer = collections.namedtuple("Answer", "of name is_generated four cells answer")

BELOW_2_64 = 2**64 - 1
FIRST_16 = [
    894848333, 1437655012, 1200606629, 1690012884, 71131202, 1749206695, 1717947831, 120589055,
    19776022, 42382981, 1831865506, 724844064, 171220207, 1299207443, 227047920, 1783754913,
]
# The cells of 24 are drawn alike, and one of them is no element of BabyBear.
FIRST_20 = [
    886409618, 1327899896, 1902407911, 591953491, 648428576, 1844789031, 1198336108, 355597330,
    1799586834, 59617783, 790334801, 1968791836, 559272107, 31054313, 1042221543, 474748436,
    135686258, 263665994, 1962340735, 1741539604,
]
LAST_4_OF_BABY_BEAR = [449439011, 1131357108, 50869465, 1589724894]
LAST_4_OF_KOALA_BEAR = [2026927696, 449439011, 1131357108, 50869465]
ANSWERS = (
    Answer("BabyBear 16, cells 0 to 15", "baby_bear_16", True, CIRCULANT, list(range(16)), [
        1906786279, 1737026427, 1959749225, 700325316, 1638050605, 1021608788, 1726691001, 1761127344,
        1552405120, 417318995, 36799261, 1215172152, 614923223, 1300746575, 957311597, 304856115,
    ]),
    Answer("Goldilocks 8 with the M_4 of the paper's authors, cells 0 to 7", "goldilocks_8", True, OF_THE_AUTHORS, list(range(8)), [
        14266028122062624699, 5353147180106052723, 15203350112844181434, 17630919042639565165,
        16601551015858213987, 10184091939013874068, 16774100645754596496, 12047415603622314780,
    ]),
    Answer("Goldilocks 8 with the M_4 of the paper's authors, random cells", "goldilocks_8", True, OF_THE_AUTHORS, [
        5116996373749832116, 8931548647907683339, 17132360229780760684, 11280040044015983889,
        11957737519043010992, 15695650327991256125, 17604752143022812942, 543194415197607509,
    ], [
        1831346684315917658, 13497752062035433374, 12149460647271516589, 15656333994315312197,
        4671534937670455565, 3140092508031220630, 4251208148861706881, 6973971209430822232,
    ]),
    Answer("BabyBear 16 with constants of Xoroshiro128+", "baby_bear_16", False, CIRCULANT, FIRST_16, [
        1255099308, 941729227, 93609187, 112406640, 492658670, 1824768948, 812517469, 1055381989,
        670973674, 1407235524, 891397172, 1003245378, 1381303998, 1564172645, 1399931635, 1005462965,
    ]),
    Answer("BabyBear 24 with constants of Xoroshiro128+", "baby_bear_24", False, CIRCULANT, FIRST_20 + LAST_4_OF_BABY_BEAR, [
        249424342, 562262148, 757431114, 354243402, 57767055, 976981973, 1393169022, 1774550827,
        1527742125, 1019514605, 1776327602, 266236737, 1412355182, 1070239213, 426390978, 1775539440,
        1527732214, 1101406020, 1417710778, 1699632661, 413672313, 820348291, 1067197851, 1669055675,
    ]),
    Answer("KoalaBear 16 with constants of Xoroshiro128+", "koala_bear_16", False, CIRCULANT, FIRST_16, [
        652590279, 1200629963, 1013089423, 1840372851, 19101828, 561050015, 1714865585, 994637181,
        498949829, 729884572, 1957973925, 263012103, 535029297, 2121808603, 964663675, 1473622080,
    ]),
    Answer("KoalaBear 24 with constants of Xoroshiro128+", "koala_bear_24", False, CIRCULANT, FIRST_20 + LAST_4_OF_KOALA_BEAR, [
        3825456, 486989921, 613714063, 282152282, 1027154688, 1171655681, 879344953, 1090688809,
        1960721991, 1604199242, 1329947150, 1535171244, 781646521, 1156559780, 1875690339, 368140677,
        457503063, 304208551, 1919757655, 835116474, 1293372648, 1254825008, 810923913, 1773631109,
    ]),
)


class Xoroshiro:
    """The generator Xoroshiro128+, whose state SplitMix64 makes of the seed 1."""

    def __init__(self):
        self.seed = 1
        self.first, self.second = self.split(), self.split()

    def split(self):
        """Returns the next number of SplitMix64."""
        self.seed = self.seed + 0x9E3779B97F4A7C15 & BELOW_2_64
        mixed = (self.seed ^ self.seed >> 30) * 0xBF58476D1CE4E5B9 & BELOW_2_64
        mixed = (mixed ^ mixed >> 27) * 0x94D049BB133111EB & BELOW_2_64
        return mixed ^ mixed >> 31

    def number(self):
        """Returns the next number of 64 bits."""
        found = self.first + self.second & BELOW_2_64
        other = self.first ^ self.second
        self.first = rotated(self.first, 24) ^ other ^ (other << 16 & BELOW_2_64)
        self.second = rotated(other, 37)
        return found

    def element(self, order):
        """Returns the element whose Montgomery form, by 2^32, is the highest 31 bits of the next number that has them below the order."""
        while True:
            form = self.number() >> 33
            if form < order:
                return form * pow(2**32, -1, order) % order


def rotated(number, by):
    """Returns a number of 64 bits rotated to the left."""
    return (number << by | number >> 64 - by) & BELOW_2_64


def comes_out(known):
    """Returns whether the permutation gives the answer."""
    it = next(it for it in SETS if it.name == known.name)
    if known.is_generated:
        constants = generated(it)
    else:
        random = Xoroshiro()
        constants = drawn(it, lambda: random.element(it.order), is_internal_last=True)
    return permuted(it, constants, known.cells, known.four) == known.answer
