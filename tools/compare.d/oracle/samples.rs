//! Pairs and numbers that several parts draw on.

/// The first halfwords of the two spaces, 512 of them.
pub fn first_halfwords() -> impl Iterator<Item = u16> {
    (0..=u16::MAX).filter(|hw1| matches!(hw1 & 0xef80, 0xef00 | 0xef80))
}

/// The pairs of the two spaces, 33,554,432 of them.
pub fn pairs() -> impl Iterator<Item = (u16, u16)> {
    first_halfwords().flat_map(|hw1| (0..=u16::MAX).map(move |hw2| (hw1, hw2)))
}

/// A number for a pair, by which a list of pairs is shuffled.
pub fn shuffled(&(hw1, hw2): &(u16, u16)) -> u64 {
    mixed(u64::from(hw1) << 16 | u64::from(hw2))
}

/// A number that looks random and follows from n alone (the finalizer of splitmix64).
pub fn mixed(n: u64) -> u64 {
    let n = n.wrapping_add(0x9e37_79b9_7f4a_7c15);
    let n = (n ^ n >> 30).wrapping_mul(0xbf58_476d_1ce4_e5b9);
    let n = (n ^ n >> 27).wrapping_mul(0x94d0_49bb_1331_11eb);
    n ^ n >> 31
}

/// Addresses at the bounds of 32, 31 and 16 bits.
const BOUNDS: [u32; 8] =
    [0, 1, 0xffff, 0x1_0000, 0x7fff_ffff, 0x8000_0000, 0xffff_fffe, 0xffff_ffff];

/// An address for a pair: one of the bounds for an eighth of the pairs, else any.
pub fn address(hw1: u16, hw2: u16) -> u32 {
    let chance = shuffled(&(hw1, hw2));
    let bound = BOUNDS[chance as usize % 8];
    if chance >> 8 & 7 == 0 {
        bound
    } else {
        (chance >> 16) as u32
    }
}
