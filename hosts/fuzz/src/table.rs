//! Every instruction by family and operation, in the numbers' order, with the bits that make its word. `Decoded` names an instruction by
//! these two numbers; `word & mask == bits` where the instruction stands. What no mask covers is operands.

pub struct Row {
    pub name: &'static str,
    pub bits: u32,
    pub mask: u32,
}

const fn row(name: &'static str, bits: u32, mask: u32) -> Row {
    Row { name, bits, mask }
}

/// Family 1 comes first; operation 0 comes first in each.
pub const FAMILIES: [&[Row]; 24] = [
    &[
        row("add.w", 0x0010_0000, 0xFFFF_8000),
        row("add.d", 0x0010_8000, 0xFFFF_8000),
        row("sub.w", 0x0011_0000, 0xFFFF_8000),
        row("sub.d", 0x0011_8000, 0xFFFF_8000),
        row("slt", 0x0012_0000, 0xFFFF_8000),
        row("sltu", 0x0012_8000, 0xFFFF_8000),
        row("and", 0x0014_8000, 0xFFFF_8000),
        row("or", 0x0015_0000, 0xFFFF_8000),
        row("nor", 0x0014_0000, 0xFFFF_8000),
        row("xor", 0x0015_8000, 0xFFFF_8000),
        row("andn", 0x0016_8000, 0xFFFF_8000),
        row("orn", 0x0016_0000, 0xFFFF_8000),
        row("maskeqz", 0x0013_0000, 0xFFFF_8000),
        row("masknez", 0x0013_8000, 0xFFFF_8000),
    ],
    &[
        row("mul.w", 0x001C_0000, 0xFFFF_8000),
        row("mul.d", 0x001D_8000, 0xFFFF_8000),
        row("mulh.w", 0x001C_8000, 0xFFFF_8000),
        row("mulh.wu", 0x001D_0000, 0xFFFF_8000),
        row("mulh.d", 0x001E_0000, 0xFFFF_8000),
        row("mulh.du", 0x001E_8000, 0xFFFF_8000),
        row("mulw.d.w", 0x001F_0000, 0xFFFF_8000),
        row("mulw.d.wu", 0x001F_8000, 0xFFFF_8000),
    ],
    &[
        row("div.w", 0x0020_0000, 0xFFFF_8000),
        row("mod.w", 0x0020_8000, 0xFFFF_8000),
        row("div.wu", 0x0021_0000, 0xFFFF_8000),
        row("mod.wu", 0x0021_8000, 0xFFFF_8000),
        row("div.d", 0x0022_0000, 0xFFFF_8000),
        row("mod.d", 0x0022_8000, 0xFFFF_8000),
        row("div.du", 0x0023_0000, 0xFFFF_8000),
        row("mod.du", 0x0023_8000, 0xFFFF_8000),
    ],
    &[
        row("sll.w", 0x0017_0000, 0xFFFF_8000),
        row("srl.w", 0x0017_8000, 0xFFFF_8000),
        row("sra.w", 0x0018_0000, 0xFFFF_8000),
        row("rotr.w", 0x001B_0000, 0xFFFF_8000),
        row("sll.d", 0x0018_8000, 0xFFFF_8000),
        row("srl.d", 0x0019_0000, 0xFFFF_8000),
        row("sra.d", 0x0019_8000, 0xFFFF_8000),
        row("rotr.d", 0x001B_8000, 0xFFFF_8000),
    ],
    &[
        row("slli.w", 0x0040_8000, 0xFFFF_8000),
        row("srli.w", 0x0044_8000, 0xFFFF_8000),
        row("srai.w", 0x0048_8000, 0xFFFF_8000),
        row("rotri.w", 0x004C_8000, 0xFFFF_8000),
        row("slli.d", 0x0041_0000, 0xFFFF_0000),
        row("srli.d", 0x0045_0000, 0xFFFF_0000),
        row("srai.d", 0x0049_0000, 0xFFFF_0000),
        row("rotri.d", 0x004D_0000, 0xFFFF_0000),
    ],
    &[
        row("addi.w", 0x0280_0000, 0xFFC0_0000),
        row("addi.d", 0x02C0_0000, 0xFFC0_0000),
        row("addu16i.d", 0x1000_0000, 0xFC00_0000),
        row("slti", 0x0200_0000, 0xFFC0_0000),
        row("sltui", 0x0240_0000, 0xFFC0_0000),
        row("lu52i.d", 0x0300_0000, 0xFFC0_0000),
        row("andi", 0x0340_0000, 0xFFC0_0000),
        row("ori", 0x0380_0000, 0xFFC0_0000),
        row("xori", 0x03C0_0000, 0xFFC0_0000),
    ],
    &[
        row("lu12i.w", 0x1400_0000, 0xFE00_0000),
        row("lu32i.d", 0x1600_0000, 0xFE00_0000),
        row("pcaddi", 0x1800_0000, 0xFE00_0000),
        row("pcaddu12i", 0x1C00_0000, 0xFE00_0000),
        row("pcaddu18i", 0x1E00_0000, 0xFE00_0000),
        row("pcalau12i", 0x1A00_0000, 0xFE00_0000),
    ],
    &[
        row("alsl.w", 0x0004_0000, 0xFFFE_0000),
        row("alsl.wu", 0x0006_0000, 0xFFFE_0000),
        row("alsl.d", 0x002C_0000, 0xFFFE_0000),
    ],
    &[
        row("bytepick.w", 0x0008_0000, 0xFFFE_0000),
        row("bytepick.d", 0x000C_0000, 0xFFFC_0000),
    ],
    &[
        row("ext.w.b", 0x0000_5C00, 0xFFFF_FC00),
        row("ext.w.h", 0x0000_5800, 0xFFFF_FC00),
        row("clo.w", 0x0000_1000, 0xFFFF_FC00),
        row("clo.d", 0x0000_2000, 0xFFFF_FC00),
        row("clz.w", 0x0000_1400, 0xFFFF_FC00),
        row("clz.d", 0x0000_2400, 0xFFFF_FC00),
        row("cto.w", 0x0000_1800, 0xFFFF_FC00),
        row("cto.d", 0x0000_2800, 0xFFFF_FC00),
        row("ctz.w", 0x0000_1C00, 0xFFFF_FC00),
        row("ctz.d", 0x0000_2C00, 0xFFFF_FC00),
        row("revb.2h", 0x0000_3000, 0xFFFF_FC00),
        row("revb.4h", 0x0000_3400, 0xFFFF_FC00),
        row("revb.2w", 0x0000_3800, 0xFFFF_FC00),
        row("revb.d", 0x0000_3C00, 0xFFFF_FC00),
        row("revh.2w", 0x0000_4000, 0xFFFF_FC00),
        row("revh.d", 0x0000_4400, 0xFFFF_FC00),
        row("bitrev.4b", 0x0000_4800, 0xFFFF_FC00),
        row("bitrev.8b", 0x0000_4C00, 0xFFFF_FC00),
        row("bitrev.w", 0x0000_5000, 0xFFFF_FC00),
        row("bitrev.d", 0x0000_5400, 0xFFFF_FC00),
    ],
    &[
        row("bstrins.w", 0x0060_0000, 0xFFE0_8000),
        row("bstrins.d", 0x0080_0000, 0xFFC0_0000),
        row("bstrpick.w", 0x0060_8000, 0xFFE0_8000),
        row("bstrpick.d", 0x00C0_0000, 0xFFC0_0000),
    ],
    &[
        row("beq", 0x5800_0000, 0xFC00_0000),
        row("bne", 0x5C00_0000, 0xFC00_0000),
        row("blt", 0x6000_0000, 0xFC00_0000),
        row("bge", 0x6400_0000, 0xFC00_0000),
        row("bltu", 0x6800_0000, 0xFC00_0000),
        row("bgeu", 0x6C00_0000, 0xFC00_0000),
    ],
    &[row("beqz", 0x4000_0000, 0xFC00_0000), row("bnez", 0x4400_0000, 0xFC00_0000)],
    &[
        row("b", 0x5000_0000, 0xFC00_0000),
        row("bl", 0x5400_0000, 0xFC00_0000),
        row("jirl", 0x4C00_0000, 0xFC00_0000),
    ],
    &[
        row("ld.b", 0x2800_0000, 0xFFC0_0000),
        row("ld.h", 0x2840_0000, 0xFFC0_0000),
        row("ld.w", 0x2880_0000, 0xFFC0_0000),
        row("ld.d", 0x28C0_0000, 0xFFC0_0000),
        row("ld.bu", 0x2A00_0000, 0xFFC0_0000),
        row("ld.hu", 0x2A40_0000, 0xFFC0_0000),
        row("ld.wu", 0x2A80_0000, 0xFFC0_0000),
    ],
    &[
        row("ldx.b", 0x3800_0000, 0xFFFF_8000),
        row("ldx.h", 0x3804_0000, 0xFFFF_8000),
        row("ldx.w", 0x3808_0000, 0xFFFF_8000),
        row("ldx.d", 0x380C_0000, 0xFFFF_8000),
        row("ldx.bu", 0x3820_0000, 0xFFFF_8000),
        row("ldx.hu", 0x3824_0000, 0xFFFF_8000),
        row("ldx.wu", 0x3828_0000, 0xFFFF_8000),
    ],
    &[
        row("st.b", 0x2900_0000, 0xFFC0_0000),
        row("st.h", 0x2940_0000, 0xFFC0_0000),
        row("st.w", 0x2980_0000, 0xFFC0_0000),
        row("st.d", 0x29C0_0000, 0xFFC0_0000),
    ],
    &[
        row("stx.b", 0x3810_0000, 0xFFFF_8000),
        row("stx.h", 0x3814_0000, 0xFFFF_8000),
        row("stx.w", 0x3818_0000, 0xFFFF_8000),
        row("stx.d", 0x381C_0000, 0xFFFF_8000),
    ],
    &[
        row("ldptr.w", 0x2400_0000, 0xFF00_0000),
        row("ldptr.d", 0x2600_0000, 0xFF00_0000),
        row("stptr.w", 0x2500_0000, 0xFF00_0000),
        row("stptr.d", 0x2700_0000, 0xFF00_0000),
    ],
    &[row("preld", 0x2AC0_0000, 0xFFC0_0000), row("preldx", 0x382C_0000, 0xFFFF_8000)],
    &[row("dbar", 0x3872_0000, 0xFFFF_8000), row("ibar", 0x3872_8000, 0xFFFF_8000)],
    &[row("syscall", 0x002B_0000, 0xFFFF_8000), row("break", 0x002A_0000, 0xFFFF_8000)],
    &[row("asrtle.d", 0x0001_0000, 0xFFFF_801F), row("asrtgt.d", 0x0001_8000, 0xFFFF_801F)],
    &[row("cpucfg", 0x0000_6C00, 0xFFFF_FC00)],
];

/// The families that the generator asks for by name.
pub mod family {
    pub const FIELD: usize = 11;
    pub const BRANCH: usize = 12;
    pub const ZERO_BRANCH: usize = 13;
    pub const JUMP: usize = 14;
    pub const LOAD: usize = 15;
    pub const INDEXED_LOAD: usize = 16;
    pub const STORE: usize = 17;
    pub const INDEXED_STORE: usize = 18;
    pub const POINTER: usize = 19;
    pub const TRAP: usize = 22;
    pub const ASSERT: usize = 23;
}

/// The row that the library's two numbers name.
pub fn named(family: u64, operation: u64) -> Option<&'static Row> {
    let rows = FAMILIES.get(usize::try_from(family.checked_sub(1)?).ok()?)?;
    rows.get(usize::try_from(operation).ok()?)
}

/// How many bytes a load or a store moves, by its name's last letters.
pub fn width(name: &str) -> u64 {
    let letters = name.rsplit('.').next().unwrap_or_default();
    match letters.as_bytes().first() {
        Some(b'b') => 1,
        Some(b'h') => 2,
        Some(b'w') => 4,
        _ => 8,
    }
}
