use crate::raw::Decoded;

/// A family of instructions. [`FAMILIES`] has the mnemonics of each.
#[derive(Clone, Copy, Debug, PartialEq, Eq, Hash)]
pub enum Family {
    /// Sums, comparisons and bitwise operations of two registers.
    Alu,
    /// Products.
    Product,
    /// Quotients and remainders.
    Division,
    /// Shifts by a register.
    Shift,
    /// Shifts by a fixed amount.
    ShiftImmediate,
    /// A register and a short immediate.
    Immediate,
    /// An immediate for the upper bits, or a sum with the pc.
    Upper,
    /// A shift by 1 to 4, and a sum.
    Alsl,
    /// Bytes of two registers put together.
    Bytepick,
    /// One register: extensions, counts of bits, reversals.
    Unary,
    /// Bit fields: put in, or taken out.
    Field,
    /// Branches that compare two registers.
    Branch,
    /// Branches that compare a register with zero.
    ZeroBranch,
    /// Jumps.
    Jump,
    /// Loads at a register and an offset.
    Load,
    /// Loads at the sum of two registers.
    IndexedLoad,
    /// Stores at a register and an offset.
    Store,
    /// Stores at the sum of two registers.
    IndexedStore,
    /// Loads and stores whose offset counts words.
    Pointer,
    /// Hints that do nothing here.
    Preload,
    /// Barriers, which do nothing here.
    Barrier,
    /// Calls of the host.
    Trap,
    /// Assertions about two registers.
    Assert,
    /// What the processor can do.
    Config,
}

/// Every family with the mnemonics of its operations, in the order of their numbers: families from 1, operations from 0.
#[rustfmt::skip]
pub const FAMILIES: [(Family, &[&str]); 24] = [
    (Family::Alu, &["add.w", "add.d", "sub.w", "sub.d", "slt", "sltu", "and", "or", "nor", "xor", "andn", "orn", "maskeqz", "masknez"]),
    (Family::Product, &["mul.w", "mul.d", "mulh.w", "mulh.wu", "mulh.d", "mulh.du", "mulw.d.w", "mulw.d.wu"]),
    (Family::Division, &["div.w", "mod.w", "div.wu", "mod.wu", "div.d", "mod.d", "div.du", "mod.du"]),
    (Family::Shift, &["sll.w", "srl.w", "sra.w", "rotr.w", "sll.d", "srl.d", "sra.d", "rotr.d"]),
    (Family::ShiftImmediate, &["slli.w", "srli.w", "srai.w", "rotri.w", "slli.d", "srli.d", "srai.d", "rotri.d"]),
    (Family::Immediate, &["addi.w", "addi.d", "addu16i.d", "slti", "sltui", "lu52i.d", "andi", "ori", "xori"]),
    (Family::Upper, &["lu12i.w", "lu32i.d", "pcaddi", "pcaddu12i", "pcaddu18i", "pcalau12i"]),
    (Family::Alsl, &["alsl.w", "alsl.wu", "alsl.d"]),
    (Family::Bytepick, &["bytepick.w", "bytepick.d"]),
    (Family::Unary, &[
        "ext.w.b", "ext.w.h", "clo.w", "clo.d", "clz.w", "clz.d", "cto.w", "cto.d", "ctz.w", "ctz.d", "revb.2h", "revb.4h", "revb.2w",
        "revb.d", "revh.2w", "revh.d", "bitrev.4b", "bitrev.8b", "bitrev.w", "bitrev.d",
    ]),
    (Family::Field, &["bstrins.w", "bstrins.d", "bstrpick.w", "bstrpick.d"]),
    (Family::Branch, &["beq", "bne", "blt", "bge", "bltu", "bgeu"]),
    (Family::ZeroBranch, &["beqz", "bnez"]),
    (Family::Jump, &["b", "bl", "jirl"]),
    (Family::Load, &["ld.b", "ld.h", "ld.w", "ld.d", "ld.bu", "ld.hu", "ld.wu"]),
    (Family::IndexedLoad, &["ldx.b", "ldx.h", "ldx.w", "ldx.d", "ldx.bu", "ldx.hu", "ldx.wu"]),
    (Family::Store, &["st.b", "st.h", "st.w", "st.d"]),
    (Family::IndexedStore, &["stx.b", "stx.h", "stx.w", "stx.d"]),
    (Family::Pointer, &["ldptr.w", "ldptr.d", "stptr.w", "stptr.d"]),
    (Family::Preload, &["preld", "preldx"]),
    (Family::Barrier, &["dbar", "ibar"]),
    (Family::Trap, &["syscall", "break"]),
    (Family::Assert, &["asrtle.d", "asrtgt.d"]),
    (Family::Config, &["cpucfg"]),
];

/// What a word means. The operands are the word's own fields: not sign-extended, not scaled, and 0 where the format has no such field.
#[derive(Clone, Copy, Debug, PartialEq, Eq)]
pub struct Instruction {
    /// The family.
    pub family: Family,
    /// The place of the mnemonic in its family, counted from 0.
    pub operation: usize,
    /// Bits 4:0; the hint of preld and preldx.
    pub rd: u64,
    /// Bits 9:5.
    pub rj: u64,
    /// Bits 14:10; the lsb of bstrins and bstrpick.
    pub rk: u64,
    /// The immediate, offset, shift amount or code; the msb of bstrins and bstrpick. The two parts of a branch's offset are put together:
    /// bits 4:0 (beqz, bnez) or 9:0 (b, bl) of the word stand above bits 25:10.
    pub imm: u64,
}

impl Instruction {
    /// The manual's name of the operation, in small letters. It panics where the family has no such operation, which no decoded word has.
    pub fn mnemonic(&self) -> &'static str {
        FAMILIES[self.family as usize].1[self.operation]
    }

    pub(crate) fn of(decoded: &Decoded) -> Option<Instruction> {
        let Decoded {
            family,
            operation,
            rd,
            rj,
            rk,
            imm,
        } = *decoded;
        if family == 0 {
            return None;
        }
        match FAMILIES.get(family as usize - 1) {
            Some(row) if operation < row.1.len() as u64 => Some(Instruction {
                family: row.0,
                operation: operation as usize,
                rd,
                rj,
                rk,
                imm,
            }),
            _ => panic!("the linked library gave operation {operation} of family {family}, which does not exist: it is not Qhobuziya's"),
        }
    }
}

#[cfg(test)]
mod tests {
    use super::*;

    #[test]
    fn every_family_has_its_own_line() {
        for (at, row) in FAMILIES.iter().enumerate() {
            assert_eq!(row.0 as usize, at);
        }
    }
}
