//! The pairs that document 01 has written for each step, one for a constant's half where one will do: their halfwords
//! by the manual (A7-9, A7-12, A7-15) and their effect on the file by the document's register machine. It knows no
//! row's meaning.

use crate::step::Step;
use std::collections::BTreeMap;
use std::sync::OnceLock;

#[derive(Clone, Copy, Debug)]
pub enum Op {
    And,
    Or,
    Xor,
    OrNot,
    /// vbsl and vbif: the old target picks, or keeps itself where m is 1.
    Pick,
    Keep,
    Add,
    Sub,
    Mul,
    /// These with the sign, 1 signed.
    Max(u8),
    Min(u8),
    Greater(u8),
    Left(u8),
    Right(u8, u8),
    /// vmov or vmvn of a modified immediate, by op, cmode and imm8; vorr.i32 of a byte at 8, 16 or 24.
    Set(u16, u16, u8),
    Join(u8, u32),
}

/// One pair: D registers by number, a quad by its first.
#[derive(Clone, Copy, Debug)]
pub struct Pair {
    op: Op,
    width: u8,
    quad: bool,
    d: u8,
    n: u8,
    m: u8,
}

/// The scratch registers Q14, D28 and D30.
const Q14: u8 = 14;
const D28: u8 = 28;
const D30: u8 = 30;

fn on_quads(op: Op, width: u8, d: u8, n: u8, m: u8) -> Pair {
    Pair { op, width, quad: true, d: 2 * d, n: 2 * n, m: 2 * m }
}

fn on_doubles(op: Op, d: u8, n: u8, m: u8) -> Pair {
    Pair { op, width: 0, quad: false, d, n, m }
}

/// vmov of a quad is vorr with equal sources.
fn copy(d: u8, m: u8) -> Pair {
    on_quads(Op::Or, 0, d, m, m)
}

/// The pairs of a step.
pub fn of_step(step: &Step) -> Vec<Pair> {
    let Step { target: t, a, b, c, width, amount, sign, .. } = *step;
    let lanes = |op| vec![on_quads(op, width, t, a, b)];
    let bits = |op| vec![on_quads(op, 0, t, a, b)];
    match step.kind {
        0 => [of_half(2 * t, step.low), of_half(2 * t + 1, step.high)].concat(),
        1 => vec![copy(t, a)],
        2 => lanes(Op::Add),
        3 => lanes(Op::Sub),
        4 => lanes(Op::Mul),
        5 => bits(Op::And),
        6 => bits(Op::Or),
        7 => bits(Op::Xor),
        8 => vec![on_quads(Op::Set(0, 0, 0), 0, Q14, 0, 0), on_quads(Op::OrNot, 0, t, Q14, a)],
        9 => vec![on_quads(Op::Left(amount), width, t, 0, a)],
        10 if amount == 0 => vec![copy(t, a)],
        10 => vec![on_quads(Op::Right(sign, amount), width, t, 0, a)],
        11 => lanes(Op::Max(sign)),
        12 => lanes(Op::Min(sign)),
        13 => vec![on_quads(Op::Greater(sign), width, t, b, a)],
        _ => vec![copy(Q14, c), on_quads(Op::Pick, 0, Q14, a, b), copy(t, Q14)],
    }
}

/// AdvSIMDExpandImm: the 64-bit pattern of a modified immediate.
pub fn expanded(op: u16, cmode: u16, imm8: u8) -> u64 {
    let byte = u64::from(imm8);
    let words = |word: u64| word << 32 | word;
    let halfwords = |half: u64| words(half << 16 | half);
    match (cmode >> 1, cmode & 1, op) {
        (0..=3, ..) => words(byte << (8 * (cmode >> 1))),
        (4, ..) => halfwords(byte),
        (5, ..) => halfwords(byte << 8),
        (6, 0, _) => words(byte << 8 | 0xff),
        (6, ..) => words(byte << 16 | 0xffff),
        (_, 0, 0) => halfwords(byte << 8 | byte),
        (_, 0, _) => u64::from_le_bytes(std::array::from_fn(|k| 0xff * (imm8 >> k & 1))),
        _ => {
            let exponent = if imm8 & 0x40 == 0 { 0x4000_0000 } else { 0x3e00_0000 };
            words((byte >> 7) << 31 | exponent | (byte & 0x3f) << 19)
        }
    }
}

/// Whether a modified immediate is read, and as a vmov or a vmvn.
fn sets(op: u16, cmode: u16, imm8: u8) -> bool {
    let joins = cmode < 12 && cmode & 1 == 1;
    let blank = op == 1 && cmode == 15;
    let refused = imm8 == 0 && [1, 2, 3, 5, 6].contains(&(cmode >> 1));
    !(joins || blank || refused)
}

/// What such a pair leaves in a D register: with op 1 all but vmov.i64 are vmvn.
fn left_by(op: u16, cmode: u16, imm8: u8) -> u64 {
    let pattern = expanded(op, cmode, imm8);
    if op == 1 && cmode != 14 {
        !pattern
    } else {
        pattern
    }
}

/// Each value that one pair leaves in a D register, with the lowest op, then cmode, then imm8.
pub fn ones() -> &'static BTreeMap<u64, (u16, u16, u8)> {
    static ONES: OnceLock<BTreeMap<u64, (u16, u16, u8)>> = OnceLock::new();
    ONES.get_or_init(|| {
        let mut all = BTreeMap::new();
        for place in 0u16..1 << 13 {
            let (op, cmode, imm8) = (place >> 12, place >> 8 & 15, place as u8);
            if sets(op, cmode, imm8) {
                all.entry(left_by(op, cmode, imm8)).or_insert((op, cmode, imm8));
            }
        }
        assert_eq!(all.len(), 4822, "the number of values that one pair leaves");
        all
    })
}

/// 64 bits in a D register: one pair where one will do, else the longer recipe.
pub fn of_half(d: u8, value: u64) -> Vec<Pair> {
    match ones().get(&value) {
        Some(&(op, cmode, imm8)) => vec![on_doubles(Op::Set(op, cmode, imm8), d, 0, 0)],
        None => of_words(d, value),
    }
}

/// 64 bits in a D register by document 01's recipe.
pub fn of_words(d: u8, value: u64) -> Vec<Pair> {
    let (low, high) = (value as u32, (value >> 32) as u32);
    let mut pairs = of_word(d, low);
    if low != high {
        pairs.extend(of_word(D28, high));
        pairs.push(on_doubles(Op::Set(1, 14, 0b1111), D30, 0, 0));
        pairs.push(on_doubles(Op::Keep, d, D28, D30));
    }
    pairs
}

/// 32 bits in both words of a D register.
fn of_word(d: u8, value: u32) -> Vec<Pair> {
    let [lowest, others @ ..] = value.to_le_bytes();
    let mut pairs = vec![on_doubles(Op::Set(0, 0, lowest), d, 0, 0)];
    for (byte, at) in others.into_iter().zip([8, 16, 24]) {
        if byte != 0 {
            pairs.push(on_doubles(Op::Join(byte, at), d, 0, 0));
        }
    }
    pairs
}

impl Pair {
    pub fn halfwords(&self) -> [u16; 2] {
        let by_sign = |sign: u8| u16::from(1 - sign);
        let width = u16::from(self.width);
        match self.op {
            Op::And => self.same(0, 0, 1, 1),
            Op::Or => self.same(0, 2, 1, 1),
            Op::OrNot => self.same(0, 3, 1, 1),
            Op::Xor => self.same(1, 0, 1, 1),
            Op::Pick => self.same(1, 1, 1, 1),
            Op::Keep => self.same(1, 3, 1, 1),
            Op::Add => self.same(0, width, 8, 0),
            Op::Sub => self.same(1, width, 8, 0),
            Op::Mul => self.same(0, width, 9, 1),
            Op::Max(sign) => self.same(by_sign(sign), width, 6, 0),
            Op::Min(sign) => self.same(by_sign(sign), width, 6, 1),
            Op::Greater(sign) => self.same(by_sign(sign), width, 3, 0),
            Op::Left(amount) => self.shift(0, 5, (8 << width) + u16::from(amount)),
            Op::Right(sign, amount) => self.shift(by_sign(sign), 0, (16 << width) - u16::from(amount)),
            Op::Set(op, cmode, imm8) => self.immediate(op, cmode, imm8),
            Op::Join(byte, at) => self.immediate(0, at as u16 / 4 + 1, byte),
        }
    }

    /// The target's and the last source's bits, which all three forms have in the same places.
    fn ends(&self) -> [u16; 2] {
        let (d, m) = (u16::from(self.d), u16::from(self.m));
        [(d >> 4) << 6, (d & 15) << 12 | u16::from(self.quad) << 6 | (m >> 4) << 5 | m & 15]
    }

    fn same(&self, u: u16, size: u16, opc: u16, b: u16) -> [u16; 2] {
        let n = u16::from(self.n);
        let [hw1, hw2] = self.ends();
        [0xef00 | u << 12 | size << 4 | n & 15 | hw1, opc << 8 | (n >> 4) << 7 | b << 4 | hw2]
    }

    /// The seven bits are L:imm6.
    fn shift(&self, u: u16, a: u16, seven: u16) -> [u16; 2] {
        let [hw1, hw2] = self.ends();
        [0xef80 | u << 12 | seven & 63 | hw1, a << 8 | (seven >> 6) << 7 | 1 << 4 | hw2]
    }

    fn immediate(&self, op: u16, cmode: u16, byte: u8) -> [u16; 2] {
        let byte = u16::from(byte);
        let [hw1, hw2] = self.ends();
        let high = (byte >> 7) << 12 | byte >> 4 & 7;
        [0xef80 | high | hw1, cmode << 8 | op << 5 | 1 << 4 | byte & 15 | hw2]
    }

    /// The pair's effect on a file; all sources are read first.
    pub fn apply(&self, file: &mut [u64; 32]) {
        let old = *file;
        for half in 0..1 + usize::from(self.quad) {
            let [d, n, m] = [self.d, self.n, self.m].map(|r| old[usize::from(r) + half]);
            file[usize::from(self.d) + half] = self.doubleword(d, n, m);
        }
    }

    fn doubleword(&self, d: u64, n: u64, m: u64) -> u64 {
        let both_words = |word: u32| u64::from(word) << 32 | u64::from(word);
        match self.op {
            Op::And => n & m,
            Op::Or => n | m,
            Op::Xor => n ^ m,
            Op::OrNot => n | !m,
            Op::Pick => n & d | m & !d,
            Op::Keep => d & m | n & !m,
            Op::Add => self.lanes(n, m, |n, m| n.wrapping_add(m)),
            Op::Sub => self.lanes(n, m, |n, m| n.wrapping_sub(m)),
            Op::Mul => self.lanes(n, m, |n, m| n.wrapping_mul(m)),
            Op::Max(sign) => self.lanes(n, m, |n, m| if self.less(sign, n, m) { m } else { n }),
            Op::Min(sign) => self.lanes(n, m, |n, m| if self.less(sign, n, m) { n } else { m }),
            Op::Greater(sign) => self.lanes(n, m, |n, m| if self.less(sign, m, n) { u64::MAX } else { 0 }),
            Op::Left(amount) => self.lanes(n, m, |_, m| m << amount),
            Op::Right(1, amount) => self.lanes(n, m, |_, m| (self.signed(m) >> amount.min(63)) as u64),
            Op::Right(_, amount) => self.lanes(n, m, |_, m| m.checked_shr(amount.into()).unwrap_or(0)),
            Op::Set(op, cmode, imm8) => left_by(op, cmode, imm8),
            Op::Join(byte, at) => d | both_words(u32::from(byte) << at),
        }
    }

    /// A lane by its sign.
    fn signed(&self, lane: u64) -> i64 {
        let above = 64 - (8 << self.width);
        (lane << above) as i64 >> above
    }

    fn less(&self, sign: u8, x: u64, y: u64) -> bool {
        if sign == 1 {
            self.signed(x) < self.signed(y)
        } else {
            x < y
        }
    }

    fn lanes(&self, n: u64, m: u64, f: impl Fn(u64, u64) -> u64) -> u64 {
        let w = 8 << self.width;
        let ones = u64::MAX >> (64 - w);
        let put = |at: usize| (f(n >> at & ones, m >> at & ones) & ones) << at;
        (0..64).step_by(w).fold(0, |all, at| all | put(at))
    }
}

/// The halfwords of pairs.
pub fn code_of(pairs: &[Pair]) -> Vec<u16> {
    pairs.iter().flat_map(Pair::halfwords).collect()
}
