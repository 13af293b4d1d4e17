//! The scope's anchors, its rules easy to get wrong, and places where the manual's text and its pseudo code differ.

use reference::{decode, run, Session};

const ANCHORS: [(u32, &str); 20] = [
    (0x0000_1000, "clo.w"),
    (0x0001_0000, "asrtle.d"),
    (0x0004_0000, "alsl.w"),
    (0x000C_0000, "bytepick.d"),
    (0x0010_0000, "add.w"),
    (0x0010_8000, "add.d"),
    (0x0020_0000, "div.w"),
    (0x002A_0000, "break"),
    (0x002B_0000, "syscall"),
    (0x0041_0000, "slli.d"),
    (0x0060_0000, "bstrins.w"),
    (0x02C0_0000, "addi.d"),
    (0x1400_0000, "lu12i.w"),
    (0x2400_0000, "ldptr.w"),
    (0x2800_0000, "ld.b"),
    (0x3800_0000, "ldx.b"),
    (0x4000_0000, "beqz"),
    (0x4C00_0000, "jirl"),
    (0x5000_0000, "b"),
    (0x5800_0000, "beq"),
];

#[test]
fn anchors() {
    for (word, name) in ANCHORS {
        assert_eq!(decode(word).map(|found| found.mnemonic()), Some(name), "{:08X}", word);
    }
}

#[test]
fn fields() {
    let fields = |word| decode(word).map(|found| (found.mnemonic(), found.rd, found.rj, found.rk, found.imm));
    assert_eq!(fields(0x02C0_0000 | 0xFFF << 10 | 2 << 5 | 1), Some(("addi.d", 1, 2, 0, 0xFFF)));
    assert_eq!(fields(0x4000_0000 | 2 << 10 | 3 << 5 | 1), Some(("beqz", 0, 3, 0, 0x1_0002)));
    assert_eq!(fields(0x5000_0000 | 2 << 10 | 1), Some(("b", 0, 0, 0, 0x1_0002)));
    assert_eq!(
        fields(0x0060_8000 | 9 << 16 | 4 << 10 | 2 << 5 | 1),
        Some(("bstrpick.w", 1, 2, 4, 9))
    );
    assert_eq!(fields(0x0041_0000 | 63 << 10 | 2 << 5 | 1), Some(("slli.d", 1, 2, 0, 63)));
    assert_eq!(fields(0x0040_8000 | 31 << 10 | 2 << 5 | 1), Some(("slli.w", 1, 2, 0, 31)));
}

#[test]
fn words_that_do_not_exist() {
    assert_eq!(decode(0x0001_0001), None, "asrtle.d with a bit in 4:0");
    assert_eq!(decode(0x0060_0000 | 3 << 16 | 4 << 10), None, "bstrins.w with msb below lsb");
    assert_eq!(decode(0x3860_0420), None, "amswap.w");
    assert_eq!(decode(0x0000_6000), None, "rdtimel.w");
    assert_eq!(decode(0), None);
    assert_eq!(decode(u32::MAX), None);
}

/// The value of r3 after one word that has rd 3, rj 1 and rk 2 added to it.
fn value(base: u32, rj: u64, rk: u64, rd: u64) -> u64 {
    let mut session = Session {
        regs: [0; 32],
        pc: 0x10000,
        total: 0,
        note: None,
    };
    session.regs[1..4].copy_from_slice(&[rj, rk, rd]);
    let reply = run(&(base | 3 | 1 << 5 | 2 << 10).to_le_bytes(), &mut [], 0, 0, &session, 1);
    assert_eq!((reply.refused, reply.ecode, reply.steps), (0, 0, 1));
    reply.session.regs[3]
}

const NEGATIVE: u64 = 0xFFFF_FFFF_8000_0000;

#[test]
fn sub_w_takes_rk_from_rj() {
    assert_eq!(value(0x0011_0000, 3, 5, 0), -2i64 as u64);
}

#[test]
fn unsigned_word_results_are_sign_extended() {
    assert_eq!(value(0x001D_0000, 0xFFFF_FFFF, 0xFFFF_FFFF, 0), -2i64 as u64);
    assert_eq!(value(0x0021_0000, 0x8000_0000, 1, 0), NEGATIVE);
    assert_eq!(value(0x0021_8000, 0x8000_0000, 0xFFFF_FFFF, 0), NEGATIVE);
    assert_eq!(value(0x001F_8000, 0xFFFF_FFFF, 0xFFFF_FFFF, 0), 0xFFFF_FFFE_0000_0001);
}

#[test]
fn division_by_zero_and_of_the_least() {
    let least = 1 << 63;
    assert_eq!(
        (value(0x0022_0000, least, u64::MAX, 1), value(0x0022_8000, least, u64::MAX, 1)),
        (least, 0)
    );
    assert_eq!(
        (value(0x0020_0000, NEGATIVE, u64::MAX, 1), value(0x0020_8000, NEGATIVE, u64::MAX, 1)),
        (NEGATIVE, 0)
    );
    for row in 0..8 {
        assert_eq!(value(0x0020_0000 + (row << 15), 5, 0, 1), 0);
    }
    assert_eq!(value(0x0020_0000, 5, 1 << 32, 1), 0, "the word forms use the low 32 bits only");
}

#[test]
fn shift_amounts_are_taken_modulo() {
    assert_eq!(value(0x0017_0000, 1, 33, 0), 2);
    assert_eq!(value(0x0018_8000, 1, 65, 0), 2);
    assert_eq!(value(0x0018_0000, 0x8000_0000, 63, 0), u64::MAX);
    assert_eq!(value(0x001B_8000, 1, 1, 0), 1 << 63);
}

#[test]
fn bytes_and_bits_reversed() {
    let number = 0x1122_3344_5566_77F8;
    let unary = |row: u32| {
        let mut session = Session {
            regs: [0; 32],
            pc: 0x10000,
            total: 0,
            note: None,
        };
        session.regs[1] = number;
        run(&(row << 10 | 1 << 5 | 3).to_le_bytes(), &mut [], 0, 0, &session, 1)
            .session
            .regs[3]
    };
    assert_eq!(unary(0x0C), 0x6655_F877);
    assert_eq!(unary(0x0D), 0x2211_4433_6655_F877);
    assert_eq!(unary(0x0E), 0x4433_2211_F877_6655);
    assert_eq!(unary(0x0F), 0xF877_6655_4433_2211);
    assert_eq!(unary(0x10), 0x3344_1122_77F8_5566);
    assert_eq!(unary(0x11), 0x77F8_5566_3344_1122);
    assert_eq!(unary(0x12), 0xFFFF_FFFF_AA66_EE1F);
    assert_eq!(unary(0x13), 0x8844_CC22_AA66_EE1F);
    assert_eq!(unary(0x14), 0x1FEE_66AA);
    assert_eq!(unary(0x15), 0x1FEE_66AA_22CC_4488);
}

#[test]
fn cpucfg_takes_all_64_bits_of_the_number() {
    // The word has the bit of rk 2 set already, as rk's place is part of its row.
    let read = |number| value(0x0000_6C00, number, 0, 5);
    assert_eq!((read(1), read(0), read(2), read(1 << 32 | 1)), (0x2F2F2, 0, 0, 0));
}
