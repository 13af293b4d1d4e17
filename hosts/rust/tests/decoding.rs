//! Decoding: every mnemonic's base word, as an independent assembler has it, and operands of every format.

use qhobuziya::{decode, Instruction, FAMILIES};

/// In the order of the families and their operations. All fields of the words are 0.
#[rustfmt::skip]
const BASE_WORDS: [(&str, u32); 136] = [
    ("add.w", 0x00100000), ("add.d", 0x00108000), ("sub.w", 0x00110000), ("sub.d", 0x00118000), ("slt", 0x00120000), ("sltu", 0x00128000),
    ("and", 0x00148000), ("or", 0x00150000), ("nor", 0x00140000), ("xor", 0x00158000), ("andn", 0x00168000), ("orn", 0x00160000),
    ("maskeqz", 0x00130000), ("masknez", 0x00138000),
    ("mul.w", 0x001C0000), ("mul.d", 0x001D8000), ("mulh.w", 0x001C8000), ("mulh.wu", 0x001D0000), ("mulh.d", 0x001E0000),
    ("mulh.du", 0x001E8000), ("mulw.d.w", 0x001F0000), ("mulw.d.wu", 0x001F8000),
    ("div.w", 0x00200000), ("mod.w", 0x00208000), ("div.wu", 0x00210000), ("mod.wu", 0x00218000), ("div.d", 0x00220000),
    ("mod.d", 0x00228000), ("div.du", 0x00230000), ("mod.du", 0x00238000),
    ("sll.w", 0x00170000), ("srl.w", 0x00178000), ("sra.w", 0x00180000), ("rotr.w", 0x001B0000), ("sll.d", 0x00188000),
    ("srl.d", 0x00190000), ("sra.d", 0x00198000), ("rotr.d", 0x001B8000),
    ("slli.w", 0x00408000), ("srli.w", 0x00448000), ("srai.w", 0x00488000), ("rotri.w", 0x004C8000), ("slli.d", 0x00410000),
    ("srli.d", 0x00450000), ("srai.d", 0x00490000), ("rotri.d", 0x004D0000),
    ("addi.w", 0x02800000), ("addi.d", 0x02C00000), ("addu16i.d", 0x10000000), ("slti", 0x02000000), ("sltui", 0x02400000),
    ("lu52i.d", 0x03000000), ("andi", 0x03400000), ("ori", 0x03800000), ("xori", 0x03C00000),
    ("lu12i.w", 0x14000000), ("lu32i.d", 0x16000000), ("pcaddi", 0x18000000), ("pcaddu12i", 0x1C000000), ("pcaddu18i", 0x1E000000),
    ("pcalau12i", 0x1A000000),
    ("alsl.w", 0x00040000), ("alsl.wu", 0x00060000), ("alsl.d", 0x002C0000),
    ("bytepick.w", 0x00080000), ("bytepick.d", 0x000C0000),
    ("ext.w.b", 0x00005C00), ("ext.w.h", 0x00005800), ("clo.w", 0x00001000), ("clo.d", 0x00002000), ("clz.w", 0x00001400),
    ("clz.d", 0x00002400), ("cto.w", 0x00001800), ("cto.d", 0x00002800), ("ctz.w", 0x00001C00), ("ctz.d", 0x00002C00),
    ("revb.2h", 0x00003000), ("revb.4h", 0x00003400), ("revb.2w", 0x00003800), ("revb.d", 0x00003C00), ("revh.2w", 0x00004000),
    ("revh.d", 0x00004400), ("bitrev.4b", 0x00004800), ("bitrev.8b", 0x00004C00), ("bitrev.w", 0x00005000), ("bitrev.d", 0x00005400),
    ("bstrins.w", 0x00600000), ("bstrins.d", 0x00800000), ("bstrpick.w", 0x00608000), ("bstrpick.d", 0x00C00000),
    ("beq", 0x58000000), ("bne", 0x5C000000), ("blt", 0x60000000), ("bge", 0x64000000), ("bltu", 0x68000000), ("bgeu", 0x6C000000),
    ("beqz", 0x40000000), ("bnez", 0x44000000),
    ("b", 0x50000000), ("bl", 0x54000000), ("jirl", 0x4C000000),
    ("ld.b", 0x28000000), ("ld.h", 0x28400000), ("ld.w", 0x28800000), ("ld.d", 0x28C00000), ("ld.bu", 0x2A000000), ("ld.hu", 0x2A400000),
    ("ld.wu", 0x2A800000),
    ("ldx.b", 0x38000000), ("ldx.h", 0x38040000), ("ldx.w", 0x38080000), ("ldx.d", 0x380C0000), ("ldx.bu", 0x38200000),
    ("ldx.hu", 0x38240000), ("ldx.wu", 0x38280000),
    ("st.b", 0x29000000), ("st.h", 0x29400000), ("st.w", 0x29800000), ("st.d", 0x29C00000),
    ("stx.b", 0x38100000), ("stx.h", 0x38140000), ("stx.w", 0x38180000), ("stx.d", 0x381C0000),
    ("ldptr.w", 0x24000000), ("ldptr.d", 0x26000000), ("stptr.w", 0x25000000), ("stptr.d", 0x27000000),
    ("preld", 0x2AC00000), ("preldx", 0x382C0000),
    ("dbar", 0x38720000), ("ibar", 0x38728000),
    ("syscall", 0x002B0000), ("break", 0x002A0000),
    ("asrtle.d", 0x00010000), ("asrtgt.d", 0x00018000),
    ("cpucfg", 0x00006C00),
];

#[test]
fn every_mnemonic_has_its_word() {
    let numbered = FAMILIES
        .iter()
        .flat_map(|row| (0..row.1.len()).map(move |operation| (row.0, operation)));
    for ((family, operation), (mnemonic, word)) in numbered.zip(BASE_WORDS) {
        let decoded = decode(word).expect(mnemonic);
        assert_eq!(
            decoded,
            Instruction {
                family,
                operation,
                rd: 0,
                rj: 0,
                rk: 0,
                imm: 0
            }
        );
        assert_eq!(decoded.mnemonic(), mnemonic);
    }
}

/// A word, what it is, and rd, rj, rk and imm. Negative offsets are the field's own bits.
const OPERANDS: [(u32, &str, [u64; 4]); 26] = [
    (0x00108C41, "add.d", [1, 2, 3, 0]),
    (0x0040FCA4, "slli.w", [4, 5, 0, 31]),
    (0x0041FCA4, "slli.d", [4, 5, 0, 63]),
    (0x02FFFCE6, "addi.d", [6, 7, 0, 0xFFF]),
    (0x03AAF0E6, "ori", [6, 7, 0, 0xABC]),
    (0x13FFF928, "addu16i.d", [8, 9, 0, 0xFFFE]),
    (0x15FFFFAA, "lu12i.w", [10, 0, 0, 0xFFFFD]),
    (0x0005B58B, "alsl.w", [11, 12, 13, 3]),
    (0x0009C1EE, "bytepick.w", [14, 15, 16, 3]),
    (0x000FC1EE, "bytepick.d", [14, 15, 16, 7]),
    (0x00002651, "clz.d", [17, 18, 0, 0]),
    (0x007E4693, "bstrins.w", [19, 20, 17, 30]),
    (0x00FE8693, "bstrpick.d", [19, 20, 33, 62]),
    (0x5BFFFEB6, "beq", [22, 21, 0, 0xFFFF]),
    (0x47FFFAFF, "bnez", [0, 23, 0, 0x1FFFFE]),
    (0x53FFF7FF, "b", [0, 0, 0, 0x3FFFFFD]),
    (0x54000404, "bl", [0, 0, 0, 0x40001]),
    (0x4C001338, "jirl", [24, 25, 0, 4]),
    (0x2AA0037A, "ld.wu", [26, 27, 0, 0x800]),
    (0x381C7BBC, "stx.d", [28, 29, 30, 0]),
    (0x27FFFC3F, "stptr.d", [31, 1, 0, 0x3FFF]),
    (0x2AC01448, "preld", [8, 2, 0, 5]),
    (0x38725555, "dbar", [0, 0, 0, 0x5555]),
    (0x002A7FFF, "break", [0, 0, 0, 0x7FFF]),
    (0x00019060, "asrtgt.d", [0, 3, 4, 0]),
    (0x00006CC5, "cpucfg", [5, 6, 0, 0]),
];

#[test]
fn operands_are_the_words_own_fields() {
    for (word, mnemonic, operands) in OPERANDS {
        let decoded = decode(word).expect(mnemonic);
        assert_eq!(decoded.mnemonic(), mnemonic);
        assert_eq!([decoded.rd, decoded.rj, decoded.rk, decoded.imm], operands, "{mnemonic}");
    }
}

#[test]
fn words_that_do_not_exist() {
    // All zero, all ones, asrtle.d with bits 4:0 not zero, bstrins.w with msb below lsb, ll.w.
    for word in [0, u32::MAX, 0x00010001, 0x00600400, 0x20000000] {
        assert_eq!(decode(word), None, "{word:08X}");
    }
}
