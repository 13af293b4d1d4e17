"""What document 01 decides where qemu is no oracle: every such rule, each under its sentence of 01."""
import collections
import re

from recording.machine import AREA, CODE, MASK, WINDOW, signed

Outcome = collections.namedtuple("Outcome", "ecode subcode carried pc register value after")


def raised(case, ecode, subcode, carried):
    """A raising instruction changes nothing, pc included, and is not counted."""
    return Outcome(ecode, subcode, carried, case.pc, 0, 0, case.before)


def done(case, register=0, value=0, pc=None):
    """Register 0 is always zero; a write to it is dropped."""
    return Outcome(0, 0, 0, case.pc + 4 & MASK if pc is None else pc, register, value if register else 0, case.before)


def stop(case, kind):
    """The table of stops: ecode, subcode, and what the stop carries."""
    number, carried = {
        "ADEF": ((8, 0), case.pc),  # fetch address: pc
        "ADEM": ((8, 1), case.address() if case.width() else 0),  # data address: guest address
        "ALE": ((9, 0), case.address() if case.width() else 0),  # alignment: guest address
        "BCE": ((10, 0), 0),  # bound check: 0
        "SYSCALL": ((11, 0), case.word & 0x7FFF),  # its 15-bit code
        "BREAK": ((12, 0), case.word & 0x7FFF),  # its 15-bit code
        "INE": ((13, 0), case.word),  # no such instruction: the word
    }[kind]
    return raised(case, *number, carried)


def house_fetch(case):
    """Order at each instruction: [..] pc not a multiple of 4 or outside code (ADEF); INE; ALE; ADEM [..].
    qemu does not check that pc is a multiple of 4, and its code is 64 KiB in every case."""
    if case.pc % 4 or case.code_length <= case.pc - CODE < AREA:
        return stop(case, "ADEF")


def house_alignment(case):
    """An access of n bytes needs an address that is a multiple of n [..]. ALE before ADEM is house.
    qemu does unaligned accesses."""
    if case.width() and case.address() % case.width():
        return stop(case, "ALE")


def house_window(case):
    """Data accesses reach the window only, never code. An access of n bytes needs [..] all n bytes in the window.
    Under qemu a load can read code and the window has 64 KiB in every case. The host may ignore an address's top byte."""
    n, a = case.width(), case.address() if case.width() else 0
    if not n or 0 <= a - WINDOW <= case.window_length - n:
        return None
    readable = case.name.startswith("ld") and CODE <= a < CODE + AREA
    if readable or WINDOW <= a < WINDOW + AREA or a >> 56 and a % 2**56 < 2**48:
        return stop(case, "ADEM")


def house_division(case):
    """A zero divisor raises nothing; quotient and remainder are 0 (house). Word forms use the low 32 bits only (house)."""
    if re.match(r"(div|mod)\.", case.name) and case.rk() % (2**32 if ".w" in case.name else 2**64) == 0:
        return done(case, case.fields()[0], 0)


def house_assert(case):
    """ASRTLE.D raises BCE when rj > rk, ASRTGT.D when rj <= rk, signed.
    qemu 7.2 compares unsigned, which is another order where the signs differ."""
    if case.name.startswith("asrt") and (case.rj() ^ case.rk()) >> 63:
        above = signed(case.rj()) > signed(case.rk())
        return stop(case, "BCE") if above == (case.name == "asrtle.d") else done(case)


def house_preload(case):
    """PRELD, PRELDX, DBAR, IBAR do nothing but advance pc; no address is checked. qemu 7.2 has no PRELDX."""
    if case.name == "preldx":
        return done(case)


def house_config(case):
    """CPUCFG: for word number 1 (all 64 bits of rj), 0x2F2F2 [..]. Every other number gives 0. qemu has its own CPU's words."""
    if case.name == "cpucfg":
        return done(case, case.fields()[0], 0x2F2F2 if case.rj() == 1 else 0)


def house_syscall(case):
    """SYSCALL stops and carries its 15-bit code. qemu would make the system call, so it never gets one."""
    if case.name == "syscall":
        return stop(case, "SYSCALL")


def house_own_place(case):
    """Branch offsets count words from the branch's own pc. BL writes r1. JIRL reads rj before it writes rd.
    An instruction that jumps onto itself does not end under qemu."""
    if case.name in ("b", "bl") and case.shown == 0:
        return done(case, *((1, case.pc + 4) if case.name == "bl" else (0, 0)), pc=case.pc)
    if case.name == "jirl" and (case.rj() + case.shown) & MASK == case.pc:
        return done(case, case.fields()[0], case.pc + 4, pc=case.pc)


RULES = [house_fetch, house_alignment, house_window, house_division, house_assert, house_preload, house_config, house_syscall,
         house_own_place]


def house(case):
    """What a rule says, in 01's order; None where qemu decides. Words that are not built come to qemu first."""
    for rule in RULES if case.built else [house_fetch]:
        outcome = rule(case)
        if outcome:
            return outcome
    return None


def house_unknown(case):
    """Every other word does not exist here and raises INE. qemu has some of these: floating point, atomics, CRC, RDTIME."""
    return stop(case, "INE")
