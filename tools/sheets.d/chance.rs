//! Random steps, sheets, lists of filled rows and files; every run has the same ones.

use crate::model::{uses, EVERY_MARK, EVERY_ROW};
use crate::pairs::expanded;
use crate::step::{Step, STEP};

/// A stream of numbers that look random (splitmix64).
#[derive(Clone, Default)]
pub struct Chance(pub u64);

impl Chance {
    pub fn word(&mut self) -> u64 {
        self.0 = self.0.wrapping_add(0x9e37_79b9_7f4a_7c15);
        let n = (self.0 ^ self.0 >> 30).wrapping_mul(0xbf58_476d_1ce4_e5b9);
        let n = (n ^ n >> 27).wrapping_mul(0x94d0_49bb_1331_11eb);
        n ^ n >> 31
    }

    pub fn below(&mut self, n: usize) -> usize {
        ((u128::from(self.word()) * n as u128) >> 64) as usize
    }

    pub fn once_in(&mut self, n: usize) -> bool {
        self.below(n) == 0
    }

    pub fn one<T: Copy>(&mut self, all: &[T]) -> T {
        all[self.below(all.len())]
    }

    /// A saturation mark: no, or one of the bytes that stand for yes.
    pub fn mark(&mut self) -> u8 {
        self.one(&[0, 0, 0, 1, 1, 2, 128, 255])
    }

    /// A list of filled rows for a sheet that needs these: its sort, by the arms below, and the list.
    pub fn list(&mut self, needed: u16) -> (usize, u16) {
        let sort = self.one(&[0, 0, 1, 1, 2, 3, 3, 3, 4, 4, 5, 5, 6, 7, 8, 9]);
        let rows: Vec<u16> = (0..14).map(|r| 1 << r).filter(|row| needed & row != 0).collect();
        let one = if rows.is_empty() { 0 } else { self.one(&rows) };
        let above = self.one(&[0x4000, 0x8000, 0xc000]);
        let any = self.word() as u16;
        let list = match sort {
            0 => EVERY_ROW,
            1 => EVERY_MARK,
            2 => 0,
            3 => needed,
            4 => needed & !one,
            5 => needed | above,
            6 => above,
            7 => any,
            8 => EVERY_MARK & !one,
            _ => needed | any,
        };
        (sort, list)
    }

    /// 64 bits: any, or lanes at the ends of their range.
    pub fn doubleword(&mut self) -> u64 {
        if !self.once_in(3) {
            return self.word();
        }
        let w = self.one(&[8, 16, 32, 64]);
        let ones = u64::MAX >> (64 - w);
        let ends = [0, 1, ones >> 1, (ones >> 1) + 1, ones];
        (0..64).step_by(w).fold(0, |all, at| all | self.one(&ends) << at)
    }

    pub fn file(&mut self) -> [u64; 32] {
        std::array::from_fn(|_| self.doubleword())
    }

    /// A word of a constant: any, an extreme, or with some bytes 0.
    fn constant_word(&mut self) -> u32 {
        let word = self.word() as u32;
        let bytes = self.below(16);
        let mask = (0..4).fold(0, |all, k| all | (0xff * (bytes as u32 >> k & 1)) << (8 * k));
        match self.below(4) {
            0 => word,
            1 => self.one(&[0, 1, 0xff, 0x100, 0x7fff_ffff, 0x8000_0000, 0xff00_0000, u32::MAX]),
            _ => word & mask,
        }
    }

    /// A half of a constant: what one pair leaves, or nearly; words that agree, one word alone, or two.
    pub fn half(&mut self) -> u64 {
        if self.once_in(3) {
            let value = expanded(self.below(2) as u16, self.below(16) as u16, self.word() as u8);
            let value = if self.once_in(2) { !value } else { value };
            let bit = 1 << self.below(64);
            return if self.once_in(4) { value ^ bit } else { value };
        }
        let (low, high) = (self.constant_word(), self.constant_word());
        let (low, high) = match self.below(5) {
            0 => (low, low),
            1 => (low, 0),
            2 => (0, high),
            _ => (low, high),
        };
        u64::from(high) << 32 | u64::from(low)
    }

    /// An amount of either end, or any.
    fn amount(&mut self, most: u8) -> u8 {
        let any = self.below(usize::from(most) + 1) as u8;
        self.one(&[0, 1.min(most), most, most.saturating_sub(1), any, any, any, any])
    }

    /// A step of a kind that keeps the rules; its rows agree in all ways.
    pub fn step(&mut self, kind: u8) -> Step {
        let mut rows: [u8; 4] = std::array::from_fn(|_| self.below(14) as u8);
        for k in 1..4 {
            if self.once_in(3) {
                rows[k] = rows[self.below(k)];
            }
        }
        let [target, a, b, c] = rows;
        let used = |letter, value| if uses(kind, letter) { value } else { Default::default() };
        let (a, b, c) = (used('a', a), used('b', b), used('c', c));
        let mut step = Step { kind, target, a, b, c, ..Step::default() };
        if uses(kind, 'w') || uses(kind, 'n') {
            step.width = self.below(if uses(kind, 'w') { 4 } else { 3 }) as u8;
        }
        if uses(kind, 'l') || uses(kind, 'r') {
            step.amount = self.amount(step.bits() - u8::from(uses(kind, 'l')));
        }
        if uses(kind, 's') {
            step.sign = self.below(2) as u8;
        }
        if uses(kind, 'k') {
            (step.low, step.high) = (self.half(), self.half());
        }
        step
    }

    pub fn steps(&mut self, count: usize) -> Vec<Step> {
        let one = |_| {
            let kind = self.below(15) as u8;
            self.step(kind)
        };
        (0..count).map(one).collect()
    }

    /// How many steps a sheet has: mostly few.
    pub fn count(&mut self) -> usize {
        match self.below(400) {
            0..=11 => 0,
            12..=120 => 1,
            121..=360 => 2 + self.below(7),
            361..=394 => 9 + self.below(32),
            395..=398 => 41 + self.below(215),
            _ => 256,
        }
    }

    /// A byte of the sheet replaced: which step's, and which. It is often the first that is out of range.
    pub fn damage(&mut self, sheet: &mut [u8]) -> (usize, usize) {
        let at = self.below(sheet.len() / STEP);
        let byte = if self.once_in(3) { self.below(STEP) } else { self.below(8) };
        let step = Step::of(&sheet[STEP * at..]);
        let past = match byte {
            0 => 15,
            1..=4 if uses(step.kind, ['a', 'a', 'b', 'c'][byte - 1]) => 14,
            5 => self.one(&[1, 3, 4]),
            6 => self.one(&[1, 8 << (step.width % 4), (8 << (step.width % 4)) + 1]),
            7 => self.one(&[1, 2]),
            _ => 1,
        };
        let any = self.word() as u8;
        let near = self.below(66) as u8;
        sheet[STEP * at + byte] = self.one(&[past, past, near, any]);
        (at, byte)
    }
}

/// The bytes of a sheet.
pub fn sheet_of(steps: &[Step]) -> Vec<u8> {
    steps.iter().flat_map(Step::bytes).collect()
}
