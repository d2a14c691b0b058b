//! Every value that one pair leaves in a D register, and those beside them, as the halves of a constant.

use crate::answers;
use crate::chance::{sheet_of, Chance};
use crate::compare::Compared;
use crate::model::EVERY_MARK;
use crate::pairs::ones;
use crate::step::Step;
use std::collections::BTreeSet;
use std::process::ExitCode;

/// What the constant's other half is, in turn: of 1, 4 and 10 pairs.
const OTHERS: [u64; 3] = [0, 0x0102_0304_0102_0304, 0x0102_0304_0506_0708];

/// The values that one pair leaves, and those that differ from one of them in one bit, of the whole or of every lane.
pub fn values() -> BTreeSet<u64> {
    let lanes = |w: usize| u64::MAX / (u64::MAX >> (64 - w));
    let bits: Vec<_> = [64, 32, 16, 8].into_iter().flat_map(|w| (0..w).map(move |bit| lanes(w) << bit)).collect();
    let beside = ones().keys().flat_map(|value| bits.iter().map(move |bit| value ^ bit));
    ones().keys().copied().chain(beside).collect()
}

/// How many the values are, and how many of them one pair leaves.
pub fn told(values: &BTreeSet<u64>) -> String {
    let of_one = values.iter().filter(|value| ones().contains_key(value)).count();
    format!("{} halves, {of_one} of one pair", values.len())
}

/// A constant of each value and another one, in row 0 and on: each is a low half and a high half.
pub fn constants(values: &[u64]) -> Vec<Step> {
    let ends = values.iter().zip(values.iter().rev()).zip(0..);
    ends.map(|((&low, &high), target)| Step { target, low, high, ..Step::default() }).collect()
}

/// Each value as the low half and as the high half of a sheet of one step.
pub fn halves() -> ExitCode {
    let mut all = Compared::default();
    let mut chance = Chance(5);
    let values = values();
    let mut pairs = 0;
    for (k, value) in values.iter().enumerate() {
        let (target, other) = ((k % 14) as u8, OTHERS[k % 3]);
        for (low, high) in [(*value, other), (other, *value)] {
            pairs += all.constant(&mut chance, Step { target, low, high, ..Step::default() });
        }
    }
    println!("{}, {pairs} pairs: {} disagreements", told(&values), all.report.disagreements);
    all.report.status()
}

impl Compared {
    /// A sheet of this step into an output that is long enough, one a halfword short and one longer; its pairs.
    fn constant(&mut self, chance: &mut Chance, step: Step) -> usize {
        let sheet = sheet_of(&[step]);
        let n = answers::count(&sheet).unwrap_or(0);
        self.translation(chance, &sheet, EVERY_MARK, 2 * n);
        self.translation(chance, &sheet, EVERY_MARK, 2 * n - 1);
        self.evaluation(chance, &sheet, EVERY_MARK, 2 * n + 2, n as u64, 32);
        n
    }
}
