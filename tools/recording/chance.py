"""Values and operands by chance, most of them near a corner."""
import random

from recording.machine import MASK, signed
from recording.words import NOT_BUILT

CORNERS = [
    0, 1, 2, 7, 0x7F, 0x80, 0xFF, 0x7FFF, 0x8000, 0xFFFF, 0x7FFFFFFF, 0x80000000, 0xFFFFFFFF, 0x100000000, 0x17FFFFFFF,
    0x7FFFFFFFFFFFFFFF, 0x8000000000000000, 0xFFFFFFFFFFFFFFFF, 0xFFFFFFFFFFFFFFFE, 0xFFFFFFFF80000000, 0xFFFFFFFF7FFFFFFF,
    0x1122334455667788, 0xAABBCCDDEEFF0011,
]
# 0, 1, -1, the least and the greatest at both widths
ENDS = [0, 1, MASK, 2**63, 2**63 - 1, 2**31, 2**31 - 1, 2**32 - 1, 2**64 - 2**31]


class Chance:
    """The same seed gives the same values."""

    def __init__(self, seed):
        self.rng = random.Random(seed)

    def value(self):
        kind = self.rng.randrange(10)
        if kind < 3:
            return self.rng.choice(ENDS)
        if kind < 6:
            return self.rng.choice(CORNERS)
        if kind < 8:
            return self.rng.getrandbits(64)
        return self.rng.getrandbits(self.rng.randrange(1, 65)) * self.rng.choice([1, -1]) & MASK

    def immediate(self, kind, turn):
        """A field as the assembler's text has it. In turn: its ends, signed and unsigned, 0, 1, and others."""
        width, _, scale = kind[1:].partition("*")
        width = int(width)
        ends = [0, 1, 2**width - 1, 2 ** (width - 1), 2 ** (width - 1) - 1]
        raw = ends[turn % 11] if turn % 11 < len(ends) else self.rng.getrandbits(width)
        number = signed(raw, width) if kind[0] == "s" else raw
        return (number + (kind[0] == "a")) * int(scale or 1)

    def operand(self, kind, number):
        if kind in "rfv":
            return "$%s%d" % ("vr" if kind == "v" else kind, number)
        return str(self.immediate(kind, self.rng.randrange(11)))

    def not_built(self):
        """The text of an instruction that 01 does not build."""
        form, names = self.rng.choice(NOT_BUILT)
        numbers = self.rng.sample(range(32), 3)  # different ones: llvm refuses an atomic with equal registers
        operands = [self.operand(kind, number) for kind, number in zip(form.split(), numbers)]
        return "%s %s" % (self.rng.choice(names.split()), ", ".join(operands))
