"""What qemu-loongarch64 says: it runs guest.c, which runs the cases."""
import collections
import os
import re
import struct
import subprocess
import tempfile

from recording.house import stop
from recording.machine import AREA, CODE, START

# A machine, words at an offset of the code, bytes at an offset of the window, and offsets in the code to stop at in turn.
Given = collections.namedtuple("Given", "pc registers code_at words at before stops")
# How it ended: `met` of the stops were met, `others` eights of bytes of the window changed beside the given ones.
Found = collections.namedtuple("Found", "signal address pc registers met others after")

GIVEN, FOUND = struct.Struct("<33Q6I"), struct.Struct("<37Q")
SIGNALS = {4: "INE", 5: "BREAK", 11: "ADEM", 31: "BCE"}
BUILD = ("clang-19 --target=loongarch64-unknown-linux-gnusf -march=loongarch64 -mabi=lp64s -msoft-float -O2 -ffreestanding "
         "-fno-builtin -fno-pic -mcmodel=medium -nostdlib -static -fuse-ld=lld-19 -Wl,--image-base=0x4567000000 "
         "-Wl,-z,norelro -Wl,-e,_start").split()
# One instruction at a time, and a line of the log for each whose place is in the range.
TRACED = ["-singlestep", "-d", "nochain,exec"]


def packed(g):
    numbers = [g.code_at, len(g.words), g.at, len(g.before), len(g.stops), 0]
    lists = struct.pack("<%dI" % len(g.words), *g.words) + g.before + struct.pack("<%dI" % len(g.stops), *g.stops)
    return GIVEN.pack(g.pc, *g.registers, *numbers) + lists


def unpacked(got, cases):
    answers, at = [], 0
    for case in cases:
        end = at + FOUND.size + len(case.before)
        if end > len(got):
            raise SystemExit("the guest answered %d of %d cases" % (len(answers), len(cases)))
        numbers = FOUND.unpack_from(got, at)
        answers.append(Found(*numbers[:3], numbers[3:35], *numbers[35:], got[end - len(case.before):end]))
        at = end
    return answers


def build(folder):
    guest = os.path.join(folder, "guest")
    source = os.path.join(os.path.dirname(os.path.abspath(__file__)), "guest.c")
    subprocess.run(BUILD + ["-DSTART=%d" % START, "-o", guest, source], check=True)
    return guest


def answer(guest, cases, options=()):
    given = b"".join(packed(case) for case in cases)
    return unpacked(subprocess.run(["qemu-loongarch64", *options, guest], input=given, stdout=subprocess.PIPE, check=True).stdout, cases)


def run(cases):
    """What became of each case."""
    with tempfile.TemporaryDirectory() as folder:
        return answer(build(folder), cases)


def run_traced(cases):
    """The same, and for each case the places of the instructions that were executed, one that raised included."""
    with tempfile.TemporaryDirectory() as folder:
        guest, log = build(folder), os.path.join(folder, "log")
        names = subprocess.run(["llvm-nm-19", guest], text=True, stdout=subprocess.PIPE, check=True).stdout
        handler = int(re.search(r"^(\w+) \w handler$", names, re.M).group(1), 16)
        places = "0x%x+0x%x,0x%x+1" % (CODE, AREA, handler)
        answers = answer(guest, cases, TRACED + ["-dfilter", places, "-D", log])
        with open(log) as lines:
            return answers, traces(lines, handler, cases, answers)


def traces(lines, handler, cases, answers):
    """Cuts the log at the signals: a case has one for each stop that was met, or one if it has no stops."""
    parts = []
    for line in lines:
        pc = int(re.match(r"Trace 0: \w+ \[\w+/(\w+)/", line).group(1), 16)
        if pc == handler:
            parts.append([])
        else:
            parts[-1].append(pc)
    if parts.pop() != [] or len(parts) != sum(max(1, len(case.stops)) for case in cases):
        raise SystemExit("qemu's log does not have the signals of the cases")
    rest, found = iter(parts), []
    for case, said in zip(cases, answers):
        if said.met != len(case.stops):
            raise SystemExit("a program at pc %x met %d of %d stops" % (case.pc, said.met, len(case.stops)))
        found.append([pc for _ in case.stops[1:] for pc in next(rest)[:-1]] + next(rest))
    return found


def fail(case, why):
    raise SystemExit("%s, word %08x at pc %x: %s" % (case.name, case.word, case.pc, why))


def qemu_stop(case, signal, address):
    """The stop of an instruction that raised."""
    kind = SIGNALS.get(signal)
    if kind == "ADEM" and not CODE <= case.pc < CODE + AREA:
        kind = "ADEF"
    expected = {"INE": not case.built, "BREAK": case.name == "break", "ADEM": case.width(), "ADEF": case.name == "fetch",
                "BCE": case.name.startswith("asrt")}
    if not expected.get(kind):
        fail(case, "signal %d" % signal)
    if kind == "ADEM" and case.address() < 2**47 and address != case.address():
        fail(case, "qemu says that the bad address is %x" % address)
    return stop(case, kind)
