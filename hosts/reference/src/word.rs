//! The fields of an instruction word.

/// Bits `low` to `low + width - 1`.
#[inline]
pub fn bits(word: u32, low: u32, width: u32) -> u32 {
    (word >> low) & ((1 << width) - 1)
}

#[inline]
pub fn rd(word: u32) -> usize {
    bits(word, 0, 5) as usize
}

#[inline]
pub fn rj(word: u32) -> usize {
    bits(word, 5, 5) as usize
}

#[inline]
pub fn rk(word: u32) -> usize {
    bits(word, 10, 5) as usize
}

/// The offset of BEQZ and BNEZ: its upper five bits are where rd is elsewhere.
#[inline]
pub fn offs21(word: u32) -> u32 {
    bits(word, 0, 5) << 16 | bits(word, 10, 16)
}

/// The offset of B and BL: its upper ten bits are where rj and rd are elsewhere.
#[inline]
pub fn offs26(word: u32) -> u32 {
    bits(word, 0, 10) << 16 | bits(word, 10, 16)
}

/// A field of `width` bits as a signed number of 64 bits.
#[inline]
pub fn signed(field: u32, width: u32) -> u64 {
    (((field << (32 - width)) as i32) >> (32 - width)) as u64
}

#[inline]
pub fn si12(word: u32) -> u64 {
    signed(bits(word, 10, 12), 12)
}

#[inline]
pub fn ui12(word: u32) -> u64 {
    u64::from(bits(word, 10, 12))
}

#[inline]
pub fn si14(word: u32) -> u64 {
    signed(bits(word, 10, 14), 14)
}

#[inline]
pub fn si16(word: u32) -> u64 {
    signed(bits(word, 10, 16), 16)
}

#[inline]
pub fn si20(word: u32) -> u64 {
    signed(bits(word, 5, 20), 20)
}
