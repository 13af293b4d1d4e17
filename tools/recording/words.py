"""Words, by llvm's assembler and disassembler: mnemonics with their operands, and words that do not exist."""
import re
import struct
import subprocess

FEATURES = "-mattr=+64bit,+f,+d,+lsx,+lasx,+lbt,+lvz,+frecipe"

# The operands in the order of the assembler's text, and the mnemonics. After a mnemonic's colon: its immediate, s signed,
# u unsigned, a one more than the field; the width; and *4 where the text has four times the field.
FORMS = [
    ("rd rj rk", "add.w add.d sub.w sub.d slt sltu and or nor xor andn orn maskeqz masknez mul.w mul.d mulh.w mulh.wu mulh.d "
                 "mulh.du mulw.d.w mulw.d.wu div.w mod.w div.wu mod.wu div.d mod.d div.du mod.du sll.w srl.w sra.w rotr.w "
                 "sll.d srl.d sra.d rotr.d"),
    ("rd rj imm", "slli.w:u5 srli.w:u5 srai.w:u5 rotri.w:u5 slli.d:u6 srli.d:u6 srai.d:u6 rotri.d:u6 addi.w:s12 addi.d:s12 "
                  "addu16i.d:s16 slti:s12 sltui:s12 lu52i.d:s12 andi:u12 ori:u12 xori:u12"),
    ("rd imm", "lu12i.w:s20 lu32i.d:s20 pcaddi:s20 pcaddu12i:s20 pcaddu18i:s20 pcalau12i:s20"),
    ("rd rj rk imm", "alsl.w:a2 alsl.wu:a2 alsl.d:a2 bytepick.w:u2 bytepick.d:u3"),
    ("rd rj", "ext.w.b ext.w.h clo.w clo.d clz.w clz.d cto.w cto.d ctz.w ctz.d revb.2h revb.4h revb.2w revb.d revh.2w revh.d "
              "bitrev.4b bitrev.8b bitrev.w bitrev.d"),
    ("rd rj msb lsb", "bstrins.w:u5 bstrins.d:u6 bstrpick.w:u5 bstrpick.d:u6"),
    ("rj rd imm", "beq:s16*4 bne:s16*4 blt:s16*4 bge:s16*4 bltu:s16*4 bgeu:s16*4"),
    ("rj imm", "beqz:s21*4 bnez:s21*4"),
    ("imm", "b:s26*4 bl:s26*4"),
    ("rd rj imm", "jirl:s16*4"),
    ("rd rj imm", "ld.b:s12 ld.h:s12 ld.w:s12 ld.d:s12 ld.bu:s12 ld.hu:s12 ld.wu:s12 st.b:s12 st.h:s12 st.w:s12 st.d:s12"),
    ("rd rj rk", "ldx.b ldx.h ldx.w ldx.d ldx.bu ldx.hu ldx.wu stx.b stx.h stx.w stx.d"),
    ("rd rj imm", "ldptr.w:s14*4 ldptr.d:s14*4 stptr.w:s14*4 stptr.d:s14*4"),
    ("hint rj imm", "preld:s12"),
    ("hint rj rk", "preldx"),
    ("imm", "dbar:u15 ibar:u15 syscall:u15 break:u15"),
    ("rj rk", "asrtle.d asrtgt.d"),
    ("rd rj", "cpucfg"),
]

BRANCHES = "beq bne blt bge bltu bgeu beqz bnez".split()

# Instructions that 01 does not build, by their operands: r, f, v registers (general, floating, vector), or an immediate.
NOT_BUILT = [
    ("r r r", "amswap.w amswap_db.d amadd.w amadd_db.w amand.d amor.w amxor.d ammax.w ammin_db.wu amcas.w amadd.b ldgt.b ldle.d "
              "stgt.w stle.h crc.w.b.w crcc.w.d.w"),
    ("r r s14*4", "ll.w ll.d sc.w sc.d"),
    ("r r", "rdtimel.w rdtimeh.w rdtime.d iocsrrd.w iocsrwr.d"),
    ("r u14", "csrrd csrwr"), ("u5 r s12", "cacop"), ("u5 r r", "invtlb"), ("", "tlbclr tlbsrch tlbrd tlbwr ertn"),
    ("u15", "idle dbcl hvcl"),
    ("f f f", "fadd.s fsub.d fmul.s fdiv.d"), ("f f", "fmov.d fabs.s fsqrt.d ftint.l.d"), ("f r", "movgr2fr.d movgr2fr.w"),
    ("r f", "movfr2gr.d movfr2gr.s"), ("f r s12", "fld.s fld.d fst.s fst.d"), ("f r r", "fldx.d fstx.s"),
    ("v v v", "vadd.b vmul.d vand.v"), ("v r s12", "vld vst"),
]


def llvm(arguments, text):
    return subprocess.run(["llvm-mc-19", "--triple=loongarch64", FEATURES, "--show-encoding"] + arguments, input=text, text=True,
                          stdout=subprocess.PIPE, stderr=subprocess.PIPE)


def assemble(texts):
    run = llvm([], "\n".join(texts) + "\n")
    words = [sum(int(byte, 16) << 8 * at for at, byte in enumerate(found.split(",")))
             for found in re.findall(r"# encoding: \[(.*)\]", run.stdout)]
    if run.returncode or len(words) != len(texts):
        raise SystemExit("llvm does not assemble:\n" + run.stderr[:2000])
    return words


def disassembled_name(word):
    """llvm's name of the word, None where it has none."""
    run = llvm(["--disassemble"], " ".join("0x%02x" % byte for byte in struct.pack("<I", word)) + "\n")
    found = re.search(r"^\s+(\S+).*# encoding:", run.stdout, re.M)
    return found.group(1) if found else None


def words_without_name(maker, built, count):
    """Words that llvm does not know: by chance, and words of instructions with one bit flipped."""
    words = []
    while len(words) < count:
        word = maker.rng.choice([maker.rng.getrandbits(32), maker.rng.choice(built) ^ 1 << maker.rng.randrange(10, 32)])
        if disassembled_name(word) is None and word not in words:
            words.append(word)
    return words


def exchanged(word):
    """A bit field's word with msb and lsb exchanged. That the fields are at 16 and at 10 is held to llvm in `unordered`."""
    width = 31 if word >> 23 == 0 else 63
    msb, lsb = word >> 16 & width, word >> 10 & width
    return word & ~(width << 16 | width << 10) | lsb << 16 | msb << 10


def unordered(maker, count):
    """BSTRINS and BSTRPICK with msb below lsb, which no assembler takes."""
    texts, swapped = [], []
    for _ in range(count):
        name, top = maker.rng.choice([("bstrins.w", 31), ("bstrpick.w", 31), ("bstrins.d", 63), ("bstrpick.d", 63)])
        low, high = sorted(maker.rng.sample(range(top + 1), 2))
        registers = "$r%d, $r%d" % (maker.rng.randrange(32), maker.rng.randrange(32))
        texts.append("%s %s, %d, %d" % (name, registers, high, low))
        swapped.append("%s %s, %d, %d" % (name, registers, low, low))
    words = assemble(texts)
    for word, equal in zip(words, assemble(swapped)):
        width = 31 if word >> 23 == 0 else 63
        if (exchanged(word) ^ equal) & ~(width << 10):
            raise SystemExit("msb is not where it should be in %08x" % word)
    return [exchanged(word) for word in words]


def asserts_with_bits(maker, count):
    """ASRT words with bits 4:0 not zero, which no text gives."""
    texts = []
    for _ in range(count):
        rj, rk = maker.rng.randrange(32), maker.rng.randrange(32)
        texts.append("asrt%s.d $r%d, $r%d" % (maker.rng.choice(["le", "gt"]), rj, rk))
    return [word | maker.rng.randrange(1, 32) for word in assemble(texts)]
