//! Values that damaged records put in a place: every bound there is, and one past it.

use crate::record::{ABSENT, D, FLOAT, OTHER, Q, S, WHOLE};
use crate::Names;
use original::isa::t32_simd::MODIMM_NAMES;

/// A kind and a value.
pub type Place = (u64, u64);

/// Registers at the bounds of D, Q, and a byte, and past it.
const REGISTERS: [u64; 10] = [0, 1, 15, 16, 31, 32, 255, 256 + 1, (1 << 32) + 1, u64::MAX];

/// Whole numbers that no amount may wrap to, or that are at a bound of a width.
const WHOLES: [i64; 16] = [
    255,
    256,
    264,
    512,
    65_535,
    65_536,
    (1 << 31) - 1,
    1 << 31,
    (1 << 32) - 1,
    1 << 32,
    (1 << 32) + 8,
    (1 << 33) + 1,
    i64::MAX,
    i64::MIN,
    i64::MIN + 8,
    -256,
];

/// The largest amount, 64, and thirteen numbers outside 0 to 64. What 8 bits leave of seven of them
/// is an amount.
pub const AROUND_AMOUNTS: [i64; 14] = [
    64,
    65,
    128,
    255,
    256,
    257,
    264,
    320,
    (1 << 32) + 8,
    i64::MAX,
    -1,
    -8,
    -256,
    i64::MIN,
];

/// Floats that no pair has, of every sort, and two that one has.
const FLOATS: [f64; 14] = [
    0.0,
    -0.0,
    f64::INFINITY,
    f64::NEG_INFINITY,
    f64::NAN,
    -f64::NAN,
    f64::MIN_POSITIVE,
    5e-324,
    f64::MAX,
    15.0 / 128.0,
    32.0,
    0.1,
    1.0,
    -31.0,
];

/// Values for one place: each kind there is and some that are none, registers at every bound,
/// amounts from below 0 to past every width.
pub fn places() -> Vec<Place> {
    let registers = [D, Q, S].into_iter().flat_map(|kind| REGISTERS.map(|n| (kind, n)));
    let wholes = (-3..=131).chain(WHOLES).map(|n| (WHOLE, n as u64));
    let floats = FLOATS.into_iter().map(|v| (FLOAT, v.to_bits()));
    let others = (0..5).map(|n| (OTHER, n));
    let no_kinds = [7, 255, 256 + D, (1 << 32) + Q, u64::MAX].map(|kind| (kind, 1));
    let absent = [(ABSENT, 0), (ABSENT, 1)];
    registers.chain(wholes).chain(floats).chain(others).chain(no_kinds).chain(absent).collect()
}

/// A few places of each kind, for all three at once.
pub const FEW: [Place; 14] = [
    (D, 0),
    (D, 31),
    (D, 32),
    (Q, 1),
    (Q, 15),
    (Q, 16),
    (S, 1),
    (WHOLE, 0),
    (WHOLE, 8),
    (WHOLE, 1 << 32),
    (FLOAT, 0x3ff0_0000_0000_0000),
    (OTHER, 0),
    (OTHER, 1),
    (ABSENT, 0),
];

/// Counts up to the original's most, and some too large for the field.
pub const COUNTS: [u64; 12] = [0, 1, 2, 3, 4, 5, 6, 255, 256 + 2, 256 + 3, (1 << 32) + 3, u64::MAX];

/// Numbers that are no mnemonic's; the last ones would wrap to one.
pub fn unknown(names: &Names) -> [u64; 8] {
    let n = names.list.len() as u64;
    [n, n + 1, 1000, 65_535, 65_536 + 10, (1 << 32) + 10, 1 << 63, u64::MAX]
}

/// The mnemonics of the modified immediates, each once.
pub fn immediate_names() -> Vec<&'static str> {
    let mut names: Vec<_> = MODIMM_NAMES.as_flattened().to_vec();
    names.sort_unstable();
    names.dedup();
    names.retain(|name| !name.is_empty());
    names
}

/// The whole numbers around every immediate: what a byte gives under each of the manual's
/// constants, its neighbours, its negative, and what would wrap to it.
pub fn around_immediates() -> Vec<u64> {
    let mut numbers = Vec::new();
    for byte in 0..=255u64 {
        let per_bit = (0..8).filter(|i| byte >> i & 1 == 1).map(|i| 0xff << (8 * i)).sum::<u64>();
        for n in [
            byte,
            byte << 8,
            byte << 16,
            byte << 24,
            byte << 8 | 0xff,
            byte << 16 | 0xffff,
            per_bit,
        ] {
            let wraps =
                [n ^ 1 << 63, n.wrapping_add(1 << 32), n | n << 32, n << 32, n << 1, n >> 1];
            numbers.extend([n, n.wrapping_sub(1), n.wrapping_add(1), n.wrapping_neg(), !n]);
            numbers.extend(wraps);
        }
    }
    numbers.sort_unstable();
    numbers.dedup();
    numbers
}

/// The bits of every k/128 of either sign, of its neighbours as f64 and as f32, and of the k/128
/// between and around that no pair has.
pub fn around_floats() -> Vec<u64> {
    let mut floats: Vec<f64> = FLOATS.to_vec();
    for k in 0..=4100u32 {
        let v = f64::from(k) / 128.0;
        let single = v as f32;
        let near =
            [v, v.next_up(), v.next_down(), single.next_up().into(), single.next_down().into()];
        floats.extend(near.iter().flat_map(|&v| [v, -v]));
    }
    let mut bits: Vec<u64> = floats.into_iter().map(f64::to_bits).collect();
    bits.extend([0x7ff0_0000_0000_0001, 0x7ff8_0000_0000_0000, 0xfff8_0000_0000_0000, u64::MAX]);
    bits.sort_unstable();
    bits.dedup();
    bits
}
