//! What a sum sheet says, by documents 01 and 02 alone: the step rules, the rows that steps read and that are filled,
//! and the rows by whole numbers. It knows no pair.

use crate::step::Step;

/// The 14 rows, 128 bits each.
pub type Rows = [u128; 14];

/// Which of the 14 rows are filled.
pub type Filled = [bool; 14];

/// The list that names every row, and the one with every mark.
pub const EVERY_ROW: u16 = 0x3fff;
pub const EVERY_MARK: u16 = 0xffff;

/// What each kind uses: a, b, c; w a width code to 3, n one to 2; l an amount to w - 1, r one to w;
/// s the sign; k the two words.
const USES: [&str; 15] =
    ["k", "a", "abw", "abw", "abn", "ab", "ab", "ab", "a", "awl", "awrs", "abns", "abns", "abns", "abc"];

/// Whether a kind uses what the letter stands for; an unknown kind uses nothing.
pub fn uses(kind: u8, letter: char) -> bool {
    USES.get(usize::from(kind)).is_some_and(|all| all.contains(letter))
}

impl Step {
    /// The step rules.
    pub fn keeps(&self) -> bool {
        let uses = |letter| uses(self.kind, letter);
        let row = |letter, byte: u8| byte <= if uses(letter) { 13 } else { 0 };
        let widest = if uses('w') {
            3
        } else if uses('n') {
            2
        } else {
            0
        };
        if self.kind > 14 || self.width > widest {
            return false;
        }
        let amounts = if uses('l') {
            self.bits() - 1
        } else if uses('r') {
            self.bits()
        } else {
            0
        };
        self.target <= 13
            && row('a', self.a)
            && row('b', self.b)
            && row('c', self.c)
            && self.amount <= amounts
            && self.sign <= u8::from(uses('s'))
            && (uses('k') || (self.low == 0 && self.high == 0))
    }

    /// The rows that the step reads, each with its letter: those that its kind uses.
    pub fn reads(&self) -> impl Iterator<Item = (char, u8)> {
        let kind = self.kind;
        [('a', self.a), ('b', self.b), ('c', self.c)].into_iter().filter(move |(letter, _)| uses(kind, *letter))
    }

    /// The rows that the step reads and nobody filled.
    pub fn missing<'a>(&self, filled: &'a Filled) -> impl Iterator<Item = (char, u8)> + 'a {
        self.reads().filter(|(_, row)| filled.get(usize::from(*row)) == Some(&false))
    }

    /// The step's target is filled after it.
    pub fn fill(&self, filled: &mut Filled) {
        if let Some(row) = filled.get_mut(usize::from(self.target)) {
            *row = true;
        }
    }

    /// The value that the step puts in its target.
    fn value(&self, rows: &Rows) -> u128 {
        let row = |r: u8| rows[usize::from(r)];
        let (a, b, c) = (row(self.a), row(self.b), row(self.c));
        let lanes = |f: &dyn Fn(i128, i128) -> i128| self.lanes(a, b, f);
        match self.kind {
            0 => u128::from(self.low) + (u128::from(self.high) << 64),
            1 => a,
            2 => lanes(&|a, b| a + b),
            3 => lanes(&|a, b| a - b),
            4 => lanes(&|a, b| a * b),
            5 => a & b,
            6 => a | b,
            7 => a ^ b,
            8 => !a,
            9 => lanes(&|a, _| a * (1 << self.amount)),
            10 => lanes(&|a, _| a.div_euclid(1 << self.amount)),
            11 => lanes(&|a, b| a.max(b)),
            12 => lanes(&|a, b| a.min(b)),
            13 => lanes(&|a, b| if a < b { -1 } else { 0 }),
            _ => (a & c) | (b & !c),
        }
    }

    /// A function of the lanes as whole numbers, modulo 2^w; the sign says how they are read.
    fn lanes(&self, a: u128, b: u128, f: &dyn Fn(i128, i128) -> i128) -> u128 {
        let w = u32::from(self.bits());
        let modulus = 1i128 << w;
        let lane = |x: u128, at: u32| {
            let number = (x >> at) as i128 & (modulus - 1);
            let negative = self.sign == 1 && number >> (w - 1) == 1;
            if negative {
                number - modulus
            } else {
                number
            }
        };
        let put = |at: u32| (f(lane(a, at), lane(b, at)).rem_euclid(modulus) as u128) << at;
        (0..128).step_by(w as usize).map(put).sum()
    }
}

/// The rows that a list names, row r at bit r; its marks above row 13 name none.
pub fn filled_by(list: u16) -> Filled {
    std::array::from_fn(|r| list >> r & 1 == 1)
}

/// The list of the rows that some step reads before any step has set them.
pub fn needed(steps: &[Step]) -> u16 {
    let (mut set, mut list) = (filled_by(0), 0);
    for step in steps {
        list |= step.missing(&set).fold(0, |rows, (_, row)| rows | 1 << row);
        step.fill(&mut set);
    }
    list
}

/// The rows of a file.
pub fn rows_of(file: &[u64; 32]) -> Rows {
    std::array::from_fn(|r| u128::from(file[2 * r]) + (u128::from(file[2 * r + 1]) << 64))
}

/// What the steps make of the rows, in order.
pub fn meaning(steps: &[Step], mut rows: Rows) -> Rows {
    for step in steps {
        rows[usize::from(step.target)] = step.value(&rows);
    }
    rows
}
