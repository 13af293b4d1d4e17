"""Random programs: straight code, branches, counted loops, calls, accesses of the window, and at the end one chosen stop.

Every program ends under qemu: loops are counted, and a register with a role (a counter, a link, an address) is written by
nothing else. Every access before the end lies in the window and is aligned, divisors are made odd, and what ASRT compares has
one sign, so that qemu is an oracle up to the end. In one program of ten there are also instructions of which it is none; for
these it gets others, which do what document 01 says of them.
"""
from recording.machine import AREA, CODE, MASK, WINDOW, Instruction, signed
from recording.words import BRANCHES, FORMS

KINDS = "BREAK SYSCALL INE ADEF ADEM ALE BCE spent".split()
WORDS, PART = 64, 256  # the most words and bytes of the window that a line gives

ROWS = [(entry.partition(":")[0], form, entry.partition(":")[2]) for form, names in FORMS for entry in names.split()]
IMMEDIATES = {name: kind for name, _, kind in ROWS}
ACCESSES = [name for name, _, _ in ROWS if Instruction(name).width()]
BY_OFFSET = [name for name in ACCESSES if name.startswith(("ld.", "st."))]
DIVISIONS = [name for name, _, _ in ROWS if name.startswith(("div.", "mod."))]
APART = set(ACCESSES + DIVISIONS + BRANCHES + "b bl jirl preldx syscall break asrtle.d asrtgt.d cpucfg".split())
PLAIN = [row for row in ROWS if row[0] not in APART]


class Place:
    """A place in the program that a jump names before it is known."""

    def __init__(self, index=None):
        self.index = index


class Item:
    """One instruction. `way` is the place that a jump goes to, and {} in the operands the way there: `unit` for each word,
    and `plus`. `instead` is the text that qemu gets in its place."""

    def __init__(self, name, operands="", way=None, unit=4, plus=0, shown=0, instead=None):
        self.name, self.operands, self.shown, self.instead = name, operands, shown, instead
        self.way, self.unit, self.plus = way, unit, plus
        self.built, self.word = True, None

    def text(self, own):
        steps = self.way.index - own if self.way else 0
        return "%s %s" % (self.name, self.operands.format(steps * self.unit + self.plus))


def fits(number, kind):
    """Whether a number can be an immediate of the kind."""
    width, _, scale = kind[1:].partition("*")
    scale = int(scale or 1)
    return number % scale == 0 and -(2 ** (int(width) - 1)) <= number // scale < 2 ** (int(width) - 1)


def wider(some):
    """Of some accesses those that can be unaligned."""
    return [name for name in some if Instruction(name).width() > 1]


def names(*registers):
    return ", ".join("$r%d" % number for number in registers)


def jump_operands(registers):
    return ", ".join([names(register) for register in registers] + ["{}"])


class Program:
    """Its code, as items, and the machine that it starts on."""

    def __init__(self, chance, kind, unknown):
        self.chance, self.rng, self.kind, self.unknown = chance, chance.rng, kind, unknown
        self.ends = self.rng.choice(KINDS[:-1]) if kind == "spent" else kind  # how it would stop with enough budget
        self.items, self.end, self.visit = [], None, 0
        self.house = self.rng.random() < 0.1  # whether instructions of which qemu is no oracle may stand in it
        self.lay_window()
        self.share_registers()
        self.write()
        self.lay_code()

    def lay_window(self):
        """The window, and the part of it that accesses reach: all of a short one."""
        short = [0, 1, 2, 3, 5, 7, 8, 12, 13, 16, 24, 31, 40, 64, 100, 255, 256] + [self.rng.randrange(257) for _ in range(17)]
        long = [AREA] * 12 + [300, 1001, 4096, 65535]
        self.window_length = length = self.rng.choice(self.rng.choice([short, long]))
        self.part = min(length, self.rng.choice([8, 16, 64, PART, PART]) if length > PART else PART)
        self.at = self.rng.choice([0, length - self.part, self.rng.randrange(length - self.part + 1)])

    def share_registers(self):
        """Which register has which role, and what each holds at the start. r1 is the link of BL."""
        numbers = self.rng.sample(range(2, 32), 30)
        self.bases, self.pair, self.counters = numbers[:3], numbers[3:5], numbers[5:8]
        self.pointer, self.link, self.aims, self.free = numbers[8], numbers[9], numbers[10:12], numbers[12:]
        self.values = [0] + [self.chance.value() for _ in range(31)]
        start, end = WINDOW + self.at, WINDOW + self.at + self.part
        near = [self.rng.randrange(start, end + 1) // 8 * 8, self.rng.randrange(start - 1200, end + 1200),
                end - self.rng.randrange(16)]
        for register, value in zip(self.bases, near):
            self.values[register] = value
        self.paired = WINDOW + (self.at + 7) // 8 * 8 if self.part >= 16 else None
        if self.paired:
            self.values[self.pair[1]] = self.paired - self.values[self.pair[0]] & MASK

    # Instructions ----------------------------------------------------------------------------------------------------------

    def put(self, name, operands="", **more):
        self.items.append(Item(name, operands, **more))
        return self.items[-1]

    def source(self):
        return self.rng.choice(self.free) if self.rng.random() < 0.8 else self.rng.randrange(32)

    def target(self):
        return self.rng.choice(self.free) if self.rng.random() < 0.96 else 0

    def immediate(self, name):
        return self.chance.immediate(IMMEDIATES[name], self.rng.randrange(11))

    def operation(self):
        """An instruction that computes, or does nothing."""
        if self.rng.random() < 0.12:
            return self.division()
        if self.rng.random() < 0.02:
            return self.assertion()
        if self.house and self.rng.random() < 0.3:
            return self.by_house_rule()
        name, form, kind = self.rng.choice(PLAIN)
        text = {"rd": names(self.target()), "rj": names(self.source()), "rk": names(self.source())}
        text["hint"] = str(self.rng.randrange(32))
        if kind:
            text["imm"] = str(self.immediate(name))
            low, high = sorted([self.immediate(name), self.immediate(name)])
            text.update(msb=str(high), lsb=str(low))
        self.put(name, ", ".join(text[role] for role in form.split()))

    def division(self):
        """The divisor is made odd: of a zero divisor qemu is no oracle."""
        divisor = self.rng.choice(self.free)
        self.put("ori", "%s, 1" % names(divisor, self.source()))
        self.put(self.rng.choice(DIVISIONS), names(self.target(), self.source(), divisor))

    def assertion(self):
        """One that holds, of two numbers that are not negative: qemu is no oracle where the signs differ."""
        register, above = self.rng.sample(self.free, 2)
        self.put("srli.d", "%s, %d" % (names(register, self.source()), self.rng.randrange(2, 64)))
        self.put("addi.d", "%s, 1" % names(above, register))
        self.put(*self.rng.choice([("asrtle.d", names(register, above)), ("asrtgt.d", names(above, register))]))

    def by_house_rule(self):
        """house_preload, house_division, house_config: qemu gets an instruction that does what the rule says."""
        rd, rj, rk = self.target(), self.source(), self.source()
        kind = self.rng.randrange(3)
        if kind == 0:
            self.put("preldx", "3, " + names(rj, rk), instead="preld 3, %s, 0" % names(rj))
        elif kind == 1:
            self.put(self.rng.choice(DIVISIONS), names(rd, rj, 0), instead="or " + names(rd, 0, 0))
        else:
            self.put("cpucfg", names(rd, 0), instead="or " + names(rd, 0, 0))

    # Accesses --------------------------------------------------------------------------------------------------------------

    def spots(self, n):
        """Where in the part that is given an aligned access of n bytes can be."""
        return range(-(-self.at // n) * n, self.at + self.part - n + 1, n)

    def access(self):
        """A load or a store in the window, most of them at the ends of the part that is given."""
        name = self.rng.choice(ACCESSES)
        n = Instruction(name).width()
        spots = self.spots(n)
        if not spots:
            return self.operation()
        if "x." in name and self.rng.random() < 0.5:
            return self.by_mask(name, n)
        if "x." in name and self.paired and self.rng.random() < 0.4:
            return self.reach(name, self.paired)
        self.reach(name, WINDOW + self.rng.choice([spots[0], spots[-1], self.rng.choice(spots), self.rng.choice(spots)]))

    def data(self, name):
        return self.target() if name.startswith("ld") else self.source()

    def by_mask(self, name, n):
        """The index is what some bits of a register say, so the address is the program's own."""
        base, index = self.bases[0], self.rng.choice(self.free)
        offset = self.values[base] - WINDOW - self.at
        masks = [mask for mask in ((2**bits - 1) & -n for bits in range(12)) if 0 <= offset <= self.part - n - mask]
        if not masks:
            return self.operation()
        self.put("andi", "%s, %d" % (names(index, self.source()), masks[-1]))
        self.put(name, names(self.data(name), base, index))

    def reach(self, name, address):
        """An access at an address: through a register that holds one near to it, or one that is made to."""
        if "x." in name:
            return self.reach_by_index(name, address)
        kind = IMMEDIATES[name]
        near = [base for base in self.bases if fits(signed(address - self.values[base] & MASK), kind)]
        if near:
            base = self.rng.choice(near)
            offset = signed(address - self.values[base] & MASK)
        else:
            base, offset = self.aims[0], self.immediate(name)
            self.values[base] = address - offset & MASK
        self.put(name, "%s, %d" % (names(self.data(name), base), offset), shown=offset)

    def reach_by_index(self, name, address):
        """Base and index: an index of 12 bits, or two registers that only together make the address."""
        base, index = self.rng.choice(self.bases), self.rng.choice(self.free)
        offset = signed(address - self.values[base] & MASK)
        if address == self.paired:
            base, index = self.rng.sample(self.pair, 2)
        elif fits(offset, "s12"):
            self.put("addi.d", "%s, %d" % (names(index, 0), offset))
        else:
            base, index = self.rng.sample(self.aims, 2)
            self.values[index] = address - self.values[base] & MASK
        self.put(name, names(self.data(name), base, index))

    # Ways through the code -------------------------------------------------------------------------------------------------

    def write(self):
        """Functions first or last, and between them what is run: some blocks, and the stop."""
        self.functions = [(Place(), self.rng.choice([1, self.link])) for _ in range(self.rng.choice([0, 1, 1, 2]))]
        self.falls = self.ends == "ADEF" and self.rng.random() < 0.4
        first = self.falls or self.rng.random() < 0.5
        if first:
            self.write_functions()
        self.entry = len(self.items)
        self.block(self.entry + self.rng.choice([0, 1, 2, 4, 8, 12, 16, 20, 24, 28, 32, 36, 40, 40]), 0)
        getattr(self, "end_" + self.ends.lower())()
        if not first:
            self.put("break", "0")  # what qemu goes on to, where it does not stop as 01 says
            self.write_functions()

    def write_functions(self):
        for place, link in self.functions:
            place.index = len(self.items)
            for _ in range(self.rng.randrange(1, 4)):
                self.rng.choice([self.operation, self.access])()
            self.put("jirl", "%s, 0" % names(0, link))

    def block(self, limit, depth):
        while len(self.items) < limit:
            room = limit - len(self.items)
            kind = self.rng.random()
            if kind < 0.25:
                self.access()
            elif kind < 0.38 and room > 2:
                self.skip(limit, depth)
            elif kind < 0.50 and room > 4 and depth < 3:
                self.loop(limit, depth)
            elif kind < 0.58 and self.functions and room > 1:
                self.call()
            else:
                self.operation()

    def skip(self, limit, depth):
        """A branch over a block, by chance taken."""
        name, past = self.rng.choice(BRANCHES + ["b"]), Place()
        registers = {"b": [], "beqz": [self.source()], "bnez": [self.source()]}.get(name, [self.source(), self.source()])
        self.put(name, jump_operands(registers), way=past)
        self.block(min(limit, len(self.items) + self.rng.randrange(1, 7)), depth)
        past.index = len(self.items)

    def loop(self, limit, depth):
        """Counted down to 0 or up to 0, in one of the ways that a compiler would."""
        turns = self.rng.choice([1, 2, 3, 4, 5, 6] if depth else [1, 2, 3, 4, 6, 9, 20, 60])
        inside = min(limit - 3, len(self.items) + self.rng.randrange(2, 16))
        self.counted(depth, turns, lambda: self.block(inside, depth + 1))

    def counted(self, depth, turns, body):
        counter = self.counters[depth]
        step, name, registers = self.rng.choice([
            (-1, "bnez", names(counter)), (-1, "bne", names(counter, 0)), (-1, "blt", names(0, counter)),
            (-1, "bltu", names(0, counter)), (1, "bnez", names(counter)), (1, "blt", names(counter, 0)),
        ])
        self.put(self.rng.choice(["addi.d", "addi.w"]), "%s, %d" % (names(counter, 0), -step * turns))
        top = Place(len(self.items))
        body()
        self.put(self.rng.choice(["addi.d", "addi.w"]), "%s, %d" % (names(counter, counter), step))
        self.put(name, "%s, {}" % registers, way=top)

    def call(self):
        place, link = self.rng.choice(self.functions)
        if link == 1:
            self.put("bl", "{}", way=place)
        else:
            far = self.rng.randrange(-3, 4)
            self.put("pcaddi", "%s, {}" % names(link), way=place, unit=1, plus=-far)
            self.put("jirl", "%s, {}" % names(link, link), plus=4 * far)

    # Stops -----------------------------------------------------------------------------------------------------------------

    def stop_here(self):
        """The program stops at the item that was put last."""
        self.end = len(self.items) - 1

    def end_break(self):
        self.put("break", str(self.immediate("break")))
        self.stop_here()

    def end_syscall(self):
        code = self.immediate("syscall")
        self.put("syscall", str(code), instead="break %d" % code)
        self.stop_here()

    def end_ine(self):
        """A word that llvm does not know, or an instruction that 01 does not build."""
        if self.rng.random() < 0.8:
            item = self.put("unknown")
            item.word = self.rng.choice(self.unknown)
        else:
            item = self.put(*self.chance.not_built().split(" ", 1))
        item.built = False
        self.stop_here()

    def end_adef(self):
        """Out of the code: past its end, or by a jump whose aim is given when the code is laid out."""
        if not self.falls:
            name = self.rng.choice(["jirl", "jirl", "jirl", "b", "bl", "beq", "bgeu"])
            registers = {"jirl": [self.target(), self.aims[0]], "beq": [0, 0], "bgeu": [self.source(), 0]}.get(name, [])
            self.jump_out = self.put(name, jump_operands(registers))

    def end_adem(self):
        """Before the window, behind it, across its end, and far away; or by a walk over its end."""
        if self.rng.random() < 0.35 and self.walk(self.rng.choice(BY_OFFSET), lambda n: [n, n, 2 * n, -n]):
            return
        name = self.rng.choice(ACCESSES)
        n, length = Instruction(name).width(), self.window_length
        behind = -(-length // n) * n
        near = [-n, behind, behind + n * self.rng.randrange(20), -n * self.rng.randrange(1, 20)] + [length // n * n] * 3
        far = [CODE, CODE + 8, 0, MASK + 1 - n, 2**63, 2**31, 2**32 + WINDOW, 2**63 + WINDOW, 2**56 + WINDOW]
        self.reach(name, self.rng.choice(far) if self.rng.random() < 0.2 else WINDOW + self.rng.choice(near))
        self.stop_here()

    def end_ale(self):
        """No multiple of the width: in the window, across its end, outside it, far away; or by a walk with an odd step."""
        if self.rng.random() < 0.25 and self.walk(self.rng.choice(wider(BY_OFFSET)), lambda n: [1, n - 1, n // 2]):
            return
        name = self.rng.choice(wider(ACCESSES))
        n, length = Instruction(name).width(), self.window_length
        spots = [self.at // n * n, (self.at + self.part) // n * n - n, length // n * n, -n, 2**32, 2**63 - WINDOW]
        self.reach(name, WINDOW + self.rng.choice(spots) + self.rng.randrange(1, n) & MASK)
        self.stop_here()

    def walk(self, name, steps):
        """A loop whose pointer goes on by a step until the access may not be made. False where it would not come to that in the
        part that is given."""
        n = Instruction(name).width()
        spots, step = self.spots(n), self.rng.choice(steps(n))
        to_the_end = self.at + self.part == self.window_length if step > 0 else self.at == 0
        if not spots or not (to_the_end or step % n):
            return False
        first = self.rng.choice(spots)
        while (first + self.visit * step) % n == 0 and 0 <= first + self.visit * step <= self.window_length - n:
            self.visit += 1
        offset = self.rng.choice([0, n, -n, self.rng.randrange(-2048, 2048)])
        self.values[self.pointer] = WINDOW + first - offset
        self.counted(0, self.visit + self.rng.randrange(1, 4), lambda: self.walk_body(name, offset, step))
        return True

    def walk_body(self, name, offset, step):
        self.operation()
        self.put(name, "%s, %d" % (names(self.data(name), self.pointer), offset), shown=offset)
        self.stop_here()
        self.operation()
        self.put("addi.d", "%s, %d" % (names(self.pointer, self.pointer), step))

    def end_bce(self):
        """A bound check that fails. Most compare numbers of one sign: qemu is no oracle where the signs differ."""
        name, (a, b), alike = self.rng.choice(["asrtle.d", "asrtgt.d"]), self.aims, self.rng.random() < 0.7
        holds = True
        while holds or alike == bool((self.values[a] ^ self.values[b]) >> 63):
            self.values[a], self.values[b] = self.chance.value(), self.rng.choice([self.chance.value(), self.values[a]])
            holds = (signed(self.values[a]) <= signed(self.values[b])) == (name == "asrtle.d")
        self.put(name, names(a, b))
        self.stop_here()

    # The code's place ------------------------------------------------------------------------------------------------------

    def lay_code(self):
        """Where in the code the words stand, and how long the code is. All other words of it are a BREAK."""
        size, place = 4 * len(self.items), self.rng.random()
        behind = 0 if self.falls or self.rng.random() < 0.4 else 4 * self.rng.randrange(1, 30)
        self.code_at = 0 if place < 0.5 else 4 * self.rng.randrange(100) if place < 0.8 else AREA - size
        self.code_length = min(AREA, self.code_at + size + behind)
        if place < 0.1 and not self.falls:
            self.code_length = AREA
        self.pc = CODE + self.code_at + 4 * self.entry
        if self.ends == "ADEF" and not self.falls:
            self.aim_out(size)

    def aim_out(self, size):
        """Gives the jump out of the code its aim. Between two words it goes only where BREAKs stand, of which no odd part is an
        instruction that qemu has."""
        own = CODE + self.code_at + 4 * self.items.index(self.jump_out)
        behind, pads = CODE + self.code_length, CODE + min(self.code_at + size, AREA - 8)
        near = [CODE - 4, CODE + AREA, behind, behind + 4 * self.rng.randrange(100), CODE - 0x8000]
        far = [0, 6, WINDOW, WINDOW + 2, MASK - 3, 2**63, 2**32 + CODE, 2**63 + CODE, 2**48 + CODE]
        if self.code_at + size <= AREA - 8:
            far += [pads + self.rng.randrange(1, 3) for _ in range(5)]
        if self.jump_out.name == "jirl":
            self.jump_out.plus = self.immediate("jirl")
            self.values[self.aims[0]] = self.rng.choice(near + far) - self.jump_out.plus & MASK
        else:
            self.jump_out.plus = self.rng.choice(near) - own

    def instruction(self, found, index):
        """The instruction of an item, on the registers that qemu has there."""
        item = self.items[index]
        return self.placed(Instruction(item.name, item.word, item.built, item.shown), found)

    def placed(self, instruction, found):
        instruction.values, instruction.pc = dict(enumerate(found.registers)), found.pc
        instruction.code_length, instruction.window_length = self.code_length, self.window_length
        return instruction
