"""The machine that the recorders speak of: its map, and one instruction with the registers that it meets."""
import re

CODE, WINDOW, AREA = 0x10000, 0x40000000, 0x10000
START = 37  # of the window in the arena
MASK = 2**64 - 1


def signed(number, width=64):
    return number - 2**width if number >> width - 1 else number


class Instruction:
    """An instruction where it stands. `register` says what the registers hold before it."""

    def __init__(self, name, word=None, built=True, shown=0):
        self.name, self.word = name, word
        self.built = built  # whether the word is an instruction of 01
        self.shown = shown  # the immediate as the assembler's text has it
        self.values = {}  # register -> value before
        self.pc, self.code_length = CODE, AREA
        self.window_length, self.before = 0, b""

    def fields(self):
        return [self.word & 31, self.word >> 5 & 31, self.word >> 10 & 31]

    def register(self, number):
        return self.values[number] if number else 0

    def rd(self):
        return self.register(self.fields()[0])

    def rj(self):
        return self.register(self.fields()[1])

    def rk(self):
        return self.register(self.fields()[2])

    def width(self):
        """Bytes of a data access; 0 where the instruction makes none."""
        found = re.fullmatch(r"(ld|st)(x|ptr|)\.([bhwd])u?", self.name)
        return 1 << "bhwd".index(found.group(3)) if found and self.built else 0

    def address(self):
        return (self.rj() + (self.rk() if "x." in self.name else self.shown)) & MASK
