"""The generator of round constants: a Grain LFSR, as the papers of Poseidon and Poseidon2 say."""

# How many bits the register has, and the places whose sum comes in.
LENGTH = 80
TAPS = (62, 51, 38, 23, 13, 0)
# How many bits are thrown away first.
WARM_UP = 160


class Grain:
    """The register for a prime field of so many bits, a power as S-box, so many cells, external rounds and internal rounds."""

    def __init__(self, bits, width, external, internal):
        prime_field, power = 1, 0
        fields = ((prime_field, 2), (power, 4), (bits, 12), (width, 12), (external, 10), (internal, 10), (2**30 - 1, 30))
        self.register = [int(bit) for number, size in fields for bit in format(number, f"0{size}b")]
        assert len(self.register) == LENGTH
        for _ in range(WARM_UP):
            self.step()

    def step(self):
        """Moves the register by a place, and returns the bit that comes in."""
        new = 0
        for tap in TAPS:
            new ^= self.register[tap]
        self.register = [*self.register[1:], new]
        return new

    def bit(self):
        """Returns the next bit: of two that come in, the second where the first is 1; else neither."""
        while not self.step():
            self.step()
        return self.step()

    def number(self, bits, order):
        """Returns the next number of so many bits, the highest first, that is below the order."""
        while True:
            number = 0
            for _ in range(bits):
                number = 2 * number + self.bit()
            if number < order:
                return number
