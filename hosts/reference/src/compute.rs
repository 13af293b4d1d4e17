//! What the instructions compute, from register values to a register value.

use crate::operation::*;
use crate::word::{bits, si12, si16, si20, ui12};

/// A 32-bit result, sign-extended to 64 bits.
#[inline]
fn extended(value: u32) -> u64 {
    value as i32 as u64
}

#[inline]
pub fn alu(case: Alu, a: u64, b: u64) -> u64 {
    match case {
        Alu::AddW => extended((a as u32).wrapping_add(b as u32)),
        Alu::AddD => a.wrapping_add(b),
        Alu::SubW => extended((a as u32).wrapping_sub(b as u32)),
        Alu::SubD => a.wrapping_sub(b),
        Alu::Slt => u64::from((a as i64) < (b as i64)),
        Alu::Sltu => u64::from(a < b),
        Alu::And => a & b,
        Alu::Or => a | b,
        Alu::Nor => !(a | b),
        Alu::Xor => a ^ b,
        Alu::Andn => a & !b,
        Alu::Orn => a | !b,
        Alu::Maskeqz if b == 0 => 0,
        Alu::Masknez if b != 0 => 0,
        Alu::Maskeqz | Alu::Masknez => a,
    }
}

#[inline]
pub fn product(case: Product, a: u64, b: u64) -> u64 {
    let signed_word = i64::from(a as i32) * i64::from(b as i32);
    let unsigned_word = u64::from(a as u32) * u64::from(b as u32);
    match case {
        Product::MulW => extended((a as u32).wrapping_mul(b as u32)),
        Product::MulD => a.wrapping_mul(b),
        Product::MulhW => (signed_word >> 32) as u64,
        Product::MulhWu => extended((unsigned_word >> 32) as u32),
        Product::MulhD => ((i128::from(a as i64) * i128::from(b as i64)) >> 64) as u64,
        Product::MulhDu => ((u128::from(a) * u128::from(b)) >> 64) as u64,
        Product::MulwDW => signed_word as u64,
        Product::MulwDWu => unsigned_word,
    }
}

/// A zero divisor gives 0, and the least number by -1 the least number and remainder 0 (house).
#[inline]
pub fn division(case: Division, a: u64, b: u64) -> u64 {
    let [a32, b32] = [a as u32, b as u32];
    let is_word = matches!(case, Division::DivW | Division::ModW | Division::DivWu | Division::ModWu);
    if b == 0 || (is_word && b32 == 0) {
        return 0;
    }
    match case {
        Division::DivW => extended((a32 as i32).wrapping_div(b32 as i32) as u32),
        Division::ModW => extended((a32 as i32).wrapping_rem(b32 as i32) as u32),
        Division::DivWu => extended(a32 / b32),
        Division::ModWu => extended(a32 % b32),
        Division::DivD => (a as i64).wrapping_div(b as i64) as u64,
        Division::ModD => (a as i64).wrapping_rem(b as i64) as u64,
        Division::DivDu => a / b,
        Division::ModDu => a % b,
    }
}

/// The amount counts modulo 32 or 64.
#[inline]
pub fn shift(case: Shift, a: u64, amount: u32) -> u64 {
    match case {
        Shift::SllW => extended((a as u32).wrapping_shl(amount)),
        Shift::SrlW => extended((a as u32).wrapping_shr(amount)),
        Shift::SraW => (a as i32).wrapping_shr(amount) as u64,
        Shift::RotrW => extended((a as u32).rotate_right(amount % 32)),
        Shift::SllD => a.wrapping_shl(amount),
        Shift::SrlD => a.wrapping_shr(amount),
        Shift::SraD => (a as i64).wrapping_shr(amount) as u64,
        Shift::RotrD => a.rotate_right(amount % 64),
    }
}

#[inline]
pub fn immediate(case: Immediate, a: u64, word: u32) -> u64 {
    match case {
        Immediate::AddiW => extended((a as u32).wrapping_add(si12(word) as u32)),
        Immediate::AddiD => a.wrapping_add(si12(word)),
        Immediate::Addu16iD => a.wrapping_add(si16(word) << 16),
        Immediate::Slti => u64::from((a as i64) < (si12(word) as i64)),
        Immediate::Sltui => u64::from(a < si12(word)),
        Immediate::Lu52iD => si12(word) << 52 | (a & (1 << 52) - 1),
        Immediate::Andi => a & ui12(word),
        Immediate::Ori => a | ui12(word),
        Immediate::Xori => a ^ ui12(word),
    }
}

/// `old` is rd's own value, which LU32I.D keeps half of.
#[inline]
pub fn upper(case: Upper, pc: u64, old: u64, word: u32) -> u64 {
    let field = si20(word);
    match case {
        Upper::Lu12iW => field << 12,
        Upper::Lu32iD => field << 32 | u64::from(old as u32),
        Upper::Pcaddi => pc.wrapping_add(field << 2),
        Upper::Pcaddu12i => pc.wrapping_add(field << 12),
        Upper::Pcaddu18i => pc.wrapping_add(field << 18),
        Upper::Pcalau12i => pc.wrapping_add(field << 12) & !0xFFF,
    }
}

#[inline]
pub fn alsl(case: Alsl, a: u64, b: u64, word: u32) -> u64 {
    let sum = (a << (bits(word, 15, 2) + 1)).wrapping_add(b);
    match case {
        Alsl::W => extended(sum as u32),
        Alsl::Wu => u64::from(sum as u32),
        Alsl::D => sum,
    }
}

/// The upper bytes of `b` with `a` behind it, once the top n bytes are left out.
#[inline]
pub fn bytepick(case: Bytepick, a: u64, b: u64, word: u32) -> u64 {
    match case {
        Bytepick::W => {
            let both = u64::from(b as u32) << 32 | u64::from(a as u32);
            extended((both >> (32 - 8 * bits(word, 15, 2))) as u32)
        }
        Bytepick::D => {
            let both = u128::from(b) << 64 | u128::from(a);
            (both >> (64 - 8 * bits(word, 15, 3))) as u64
        }
    }
}

#[inline]
pub fn unary(case: Unary, a: u64) -> u64 {
    let a32 = a as u32;
    match case {
        Unary::ExtWB => a as i8 as u64,
        Unary::ExtWH => a as i16 as u64,
        Unary::CloW => u64::from(a32.leading_ones()),
        Unary::CloD => u64::from(a.leading_ones()),
        Unary::ClzW => u64::from(a32.leading_zeros()),
        Unary::ClzD => u64::from(a.leading_zeros()),
        Unary::CtoW => u64::from(a32.trailing_ones()),
        Unary::CtoD => u64::from(a.trailing_ones()),
        Unary::CtzW => u64::from(a32.trailing_zeros()),
        Unary::CtzD => u64::from(a.trailing_zeros()),
        Unary::Revb2h => extended(a32.swap_bytes().rotate_left(16)),
        Unary::Revb4h => swap_halves(a.swap_bytes()),
        Unary::Revb2w => a.swap_bytes().rotate_left(32),
        Unary::RevbD => a.swap_bytes(),
        Unary::Revh2w => swap_halves(a).rotate_left(32),
        Unary::RevhD => swap_halves(a),
        Unary::Bitrev4b => extended(a32.reverse_bits().swap_bytes()),
        Unary::Bitrev8b => a.reverse_bits().swap_bytes(),
        Unary::BitrevW => extended(a32.reverse_bits()),
        Unary::BitrevD => a.reverse_bits(),
    }
}

/// The four half-words in reverse order.
#[inline]
fn swap_halves(a: u64) -> u64 {
    let pairs = a.rotate_left(32);
    (pairs & 0x0000_FFFF_0000_FFFF) << 16 | (pairs >> 16 & 0x0000_FFFF_0000_FFFF)
}

/// Bits `msb` to `lsb` of `old` replaced with `a`'s lowest, or those of `a` alone. A word that decodes has `lsb` at most `msb`.
#[inline]
pub fn field(case: Field, a: u64, old: u64, msb: u32, lsb: u32) -> u64 {
    let mask = u64::MAX >> (63 - (msb - lsb));
    let inserted = (old & !(mask << lsb)) | (a & mask) << lsb;
    let picked = a >> lsb & mask;
    match case {
        Field::InsW => extended(inserted as u32),
        Field::InsD => inserted,
        Field::PickW => extended(picked as u32),
        Field::PickD => picked,
    }
}

#[inline]
pub fn taken(case: Branch, a: u64, b: u64) -> bool {
    match case {
        Branch::Beq => a == b,
        Branch::Bne => a != b,
        Branch::Blt => (a as i64) < (b as i64),
        Branch::Bge => (a as i64) >= (b as i64),
        Branch::Bltu => a < b,
        Branch::Bgeu => a >= b,
    }
}

/// Word 1 says LA64, 48-bit addresses, no unaligned access. The number is all 64 bits of rj.
#[inline]
pub fn configuration(number: u64) -> u64 {
    if number == 1 {
        0x2F2F2
    } else {
        0
    }
}
