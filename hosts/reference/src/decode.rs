//! From a word to its instruction. The rows are those of the manual's Appendix B, found by the word's upper bits first.

use crate::operation::*;
use crate::word::{bits, offs21, offs26, rd, rj, rk};

/// A decoded word: the operation and the word's own fields, neither extended nor scaled. What the format does not have is 0. For the
/// BSTR instructions rk is lsb and imm is msb; for the preloads rd is the hint.
#[derive(Clone, Copy, Debug, PartialEq, Eq)]
pub struct Instruction {
    pub operation: Operation,
    pub rd: u32,
    pub rj: u32,
    pub rk: u32,
    pub imm: u32,
}

impl Instruction {
    /// The manual's name, in small letters.
    pub fn mnemonic(&self) -> &'static str {
        self.operation.mnemonic()
    }
}

/// The instruction, or `None` for exactly the words that raise INE.
pub fn decode(word: u32) -> Option<Instruction> {
    let operation = operation(word)?;
    let [d, j, k] = [rd(word) as u32, rj(word) as u32, rk(word) as u32];
    let make = |rd, rj, rk, imm| {
        Some(Instruction {
            operation,
            rd,
            rj,
            rk,
            imm,
        })
    };
    match operation {
        Operation::Alu(_) | Operation::Product(_) | Operation::Division(_) | Operation::Shift(_) => make(d, j, k, 0),
        Operation::LoadIndexed(_) | Operation::StoreIndexed(_) | Operation::Preload(Preload::Indexed) => make(d, j, k, 0),
        Operation::ShiftBy(case) => make(d, j, 0, bits(word, 10, if is_word(case) { 5 } else { 6 })),
        Operation::Immediate(Immediate::Addu16iD) => make(d, j, 0, bits(word, 10, 16)),
        Operation::Immediate(_) | Operation::Load(_) | Operation::Store(_) => make(d, j, 0, bits(word, 10, 12)),
        Operation::Preload(Preload::Offset) => make(d, j, 0, bits(word, 10, 12)),
        Operation::Upper(_) => make(d, 0, 0, bits(word, 5, 20)),
        Operation::Alsl(_) | Operation::Bytepick(Bytepick::W) => make(d, j, k, bits(word, 15, 2)),
        Operation::Bytepick(Bytepick::D) => make(d, j, k, bits(word, 15, 3)),
        Operation::Unary(_) | Operation::Cpucfg => make(d, j, 0, 0),
        Operation::Field(case) => make(d, j, lsb(case, word), msb(case, word)),
        Operation::Branch(_) | Operation::Jump(Jump::Jirl) => make(d, j, 0, bits(word, 10, 16)),
        Operation::ZeroBranch(_) => make(0, j, 0, offs21(word)),
        Operation::Jump(Jump::B | Jump::Bl) => make(0, 0, 0, offs26(word)),
        Operation::Pointer(_) => make(d, j, 0, bits(word, 10, 14)),
        Operation::Barrier(_) | Operation::Trap(_) => make(0, 0, 0, bits(word, 0, 15)),
        Operation::Assert(_) => make(0, j, k, 0),
    }
}

fn is_word(case: Shift) -> bool {
    matches!(case, Shift::SllW | Shift::SrlW | Shift::SraW | Shift::RotrW)
}

/// The highest bit of the field that BSTRINS and BSTRPICK name.
#[inline]
pub fn msb(case: Field, word: u32) -> u32 {
    match case {
        Field::InsW | Field::PickW => bits(word, 16, 5),
        Field::InsD | Field::PickD => bits(word, 16, 6),
    }
}

/// The lowest bit of that field.
#[inline]
pub fn lsb(case: Field, word: u32) -> u32 {
    match case {
        Field::InsW | Field::PickW => bits(word, 10, 5),
        Field::InsD | Field::PickD => bits(word, 10, 6),
    }
}

/// The operation of a word, by its upper six bits.
#[inline]
pub fn operation(word: u32) -> Option<Operation> {
    let bit25 = word & 1 << 25 != 0;
    let found = match word >> 26 {
        0x00 => return low_group(word),
        0x04 => Operation::Immediate(Immediate::Addu16iD),
        0x05 => Operation::Upper(if bit25 { Upper::Lu32iD } else { Upper::Lu12iW }),
        0x06 => Operation::Upper(if bit25 { Upper::Pcalau12i } else { Upper::Pcaddi }),
        0x07 => Operation::Upper(if bit25 { Upper::Pcaddu18i } else { Upper::Pcaddu12i }),
        0x09 => Operation::Pointer(pointer(word)),
        0x0A => return offset_access(word),
        0x0E => return indexed_access(word),
        0x10 => Operation::ZeroBranch(ZeroBranch::Beqz),
        0x11 => Operation::ZeroBranch(ZeroBranch::Bnez),
        0x13 => Operation::Jump(Jump::Jirl),
        0x14 => Operation::Jump(Jump::B),
        0x15 => Operation::Jump(Jump::Bl),
        0x16 => Operation::Branch(Branch::Beq),
        0x17 => Operation::Branch(Branch::Bne),
        0x18 => Operation::Branch(Branch::Blt),
        0x19 => Operation::Branch(Branch::Bge),
        0x1A => Operation::Branch(Branch::Bltu),
        0x1B => Operation::Branch(Branch::Bgeu),
        _ => return None,
    };
    Some(found)
}

fn pointer(word: u32) -> Pointer {
    match bits(word, 24, 2) {
        0 => Pointer::LoadW,
        1 => Pointer::StoreW,
        2 => Pointer::LoadD,
        _ => Pointer::StoreD,
    }
}

/// Words whose upper six bits are zero, by bits 25 to 22.
#[inline]
fn low_group(word: u32) -> Option<Operation> {
    let found = match bits(word, 22, 4) {
        0x0 => return three_registers(word),
        0x1 => return shift_or_word_field(word),
        0x2 => return field(Field::InsD, word),
        0x3 => return field(Field::PickD, word),
        0x8 => Immediate::Slti,
        0x9 => Immediate::Sltui,
        0xA => Immediate::AddiW,
        0xB => Immediate::AddiD,
        0xC => Immediate::Lu52iD,
        0xD => Immediate::Andi,
        0xE => Immediate::Ori,
        0xF => Immediate::Xori,
        _ => return None,
    };
    Some(Operation::Immediate(found))
}

/// A field whose highest bit is below its lowest does not exist (house).
#[inline]
fn field(case: Field, word: u32) -> Option<Operation> {
    if msb(case, word) < lsb(case, word) {
        return None;
    }
    Some(Operation::Field(case))
}

/// By bits 21 to 15. The word forms of the shifts have a five-bit amount, so bit 15 is theirs; the double forms have six.
#[inline]
fn shift_or_word_field(word: u32) -> Option<Operation> {
    let found = match bits(word, 15, 7) {
        0x01 => Shift::SllW,
        0x02 | 0x03 => Shift::SllD,
        0x09 => Shift::SrlW,
        0x0A | 0x0B => Shift::SrlD,
        0x11 => Shift::SraW,
        0x12 | 0x13 => Shift::SraD,
        0x19 => Shift::RotrW,
        0x1A | 0x1B => Shift::RotrD,
        row if row < 0x40 => return None,
        row if row & 1 == 0 => return field(Field::InsW, word),
        _ => return field(Field::PickW, word),
    };
    Some(Operation::ShiftBy(found))
}

/// By bits 21 to 15: two or three registers, a few with a small field more.
#[inline]
fn three_registers(word: u32) -> Option<Operation> {
    let row = bits(word, 15, 7);
    let found = match row {
        0x00 => return two_registers(word),
        0x02 | 0x03 if rd(word) != 0 => return None,
        0x02 => Operation::Assert(Assert::LeD),
        0x03 => Operation::Assert(Assert::GtD),
        0x08..=0x0B => Operation::Alsl(Alsl::W),
        0x0C..=0x0F => Operation::Alsl(Alsl::Wu),
        0x10..=0x13 => Operation::Bytepick(Bytepick::W),
        0x18..=0x1F => Operation::Bytepick(Bytepick::D),
        0x20..=0x2D => Operation::Alu(alu(row)),
        0x2E..=0x37 => Operation::Shift(shift(row)?),
        0x38..=0x3F => Operation::Product(product(row)),
        0x40..=0x47 => Operation::Division(division(row)),
        0x54 => Operation::Trap(Trap::Break),
        0x56 => Operation::Trap(Trap::Syscall),
        0x58..=0x5B => Operation::Alsl(Alsl::D),
        _ => return None,
    };
    Some(found)
}

#[inline]
fn alu(row: u32) -> Alu {
    match row {
        0x20 => Alu::AddW,
        0x21 => Alu::AddD,
        0x22 => Alu::SubW,
        0x23 => Alu::SubD,
        0x24 => Alu::Slt,
        0x25 => Alu::Sltu,
        0x26 => Alu::Maskeqz,
        0x27 => Alu::Masknez,
        0x28 => Alu::Nor,
        0x29 => Alu::And,
        0x2A => Alu::Or,
        0x2B => Alu::Xor,
        0x2C => Alu::Orn,
        _ => Alu::Andn,
    }
}

#[inline]
fn shift(row: u32) -> Option<Shift> {
    let found = match row {
        0x2E => Shift::SllW,
        0x2F => Shift::SrlW,
        0x30 => Shift::SraW,
        0x31 => Shift::SllD,
        0x32 => Shift::SrlD,
        0x33 => Shift::SraD,
        0x36 => Shift::RotrW,
        0x37 => Shift::RotrD,
        _ => return None,
    };
    Some(found)
}

#[inline]
fn product(row: u32) -> Product {
    match row {
        0x38 => Product::MulW,
        0x39 => Product::MulhW,
        0x3A => Product::MulhWu,
        0x3B => Product::MulD,
        0x3C => Product::MulhD,
        0x3D => Product::MulhDu,
        0x3E => Product::MulwDW,
        _ => Product::MulwDWu,
    }
}

#[inline]
fn division(row: u32) -> Division {
    match row {
        0x40 => Division::DivW,
        0x41 => Division::ModW,
        0x42 => Division::DivWu,
        0x43 => Division::ModWu,
        0x44 => Division::DivD,
        0x45 => Division::ModD,
        0x46 => Division::DivDu,
        _ => Division::ModDu,
    }
}

/// By bits 14 to 10: rd and rj alone.
fn two_registers(word: u32) -> Option<Operation> {
    let found = match bits(word, 10, 5) {
        0x04 => Unary::CloW,
        0x05 => Unary::ClzW,
        0x06 => Unary::CtoW,
        0x07 => Unary::CtzW,
        0x08 => Unary::CloD,
        0x09 => Unary::ClzD,
        0x0A => Unary::CtoD,
        0x0B => Unary::CtzD,
        0x0C => Unary::Revb2h,
        0x0D => Unary::Revb4h,
        0x0E => Unary::Revb2w,
        0x0F => Unary::RevbD,
        0x10 => Unary::Revh2w,
        0x11 => Unary::RevhD,
        0x12 => Unary::Bitrev4b,
        0x13 => Unary::Bitrev8b,
        0x14 => Unary::BitrevW,
        0x15 => Unary::BitrevD,
        0x16 => Unary::ExtWH,
        0x17 => Unary::ExtWB,
        0x1B => return Some(Operation::Cpucfg),
        _ => return None,
    };
    Some(Operation::Unary(found))
}

/// Loads and stores with a 12-bit offset, by bits 25 to 22.
#[inline]
fn offset_access(word: u32) -> Option<Operation> {
    let found = match bits(word, 22, 4) {
        0x0 => Operation::Load(Load::B),
        0x1 => Operation::Load(Load::H),
        0x2 => Operation::Load(Load::W),
        0x3 => Operation::Load(Load::D),
        0x4 => Operation::Store(Store::B),
        0x5 => Operation::Store(Store::H),
        0x6 => Operation::Store(Store::W),
        0x7 => Operation::Store(Store::D),
        0x8 => Operation::Load(Load::Bu),
        0x9 => Operation::Load(Load::Hu),
        0xA => Operation::Load(Load::Wu),
        0xB => Operation::Preload(Preload::Offset),
        _ => return None,
    };
    Some(found)
}

/// Loads and stores with an index register, and the barriers, by bits 25 to 15.
#[inline]
fn indexed_access(word: u32) -> Option<Operation> {
    let found = match bits(word, 15, 11) {
        0x000 => Operation::LoadIndexed(Load::B),
        0x008 => Operation::LoadIndexed(Load::H),
        0x010 => Operation::LoadIndexed(Load::W),
        0x018 => Operation::LoadIndexed(Load::D),
        0x020 => Operation::StoreIndexed(Store::B),
        0x028 => Operation::StoreIndexed(Store::H),
        0x030 => Operation::StoreIndexed(Store::W),
        0x038 => Operation::StoreIndexed(Store::D),
        0x040 => Operation::LoadIndexed(Load::Bu),
        0x048 => Operation::LoadIndexed(Load::Hu),
        0x050 => Operation::LoadIndexed(Load::Wu),
        0x058 => Operation::Preload(Preload::Indexed),
        0x0E4 => Operation::Barrier(Barrier::Data),
        0x0E5 => Operation::Barrier(Barrier::Instruction),
        _ => return None,
    };
    Some(found)
}
