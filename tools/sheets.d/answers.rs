//! What a translation and a run answer, with their refusals: the rules of model.rs and the pairs of pairs.rs together.

use crate::model::{filled_by, EVERY_ROW};
use crate::pairs::{self, Pair};
use crate::step::{steps_of, Step, STEP};

pub const LONGEST: usize = 6144;

/// The first fault of steps and its index, with a list of the rows filled beforehand: each step is tested for 13 and
/// then for 16.
fn fault(steps: &[Step], filled: u16) -> Option<(u32, u64)> {
    let mut filled = filled_by(filled);
    for (step, index) in steps.iter().zip(0..) {
        if !step.keeps() {
            return Some((13, index));
        }
        if step.missing(&filled).next().is_some() {
            return Some((16, index));
        }
        step.fill(&mut filled);
    }
    None
}

/// What a translation into so many halfwords gives: the pairs, or the refusal and its index.
pub fn translation(sheet: &[u8], filled: u16, room: usize) -> Result<Vec<Pair>, (u32, u64)> {
    if sheet.len() % STEP != 0 || sheet.len() > LONGEST {
        return Err((12, 0));
    }
    let steps = steps_of(sheet);
    if let Some(fault) = fault(&steps, filled) {
        return Err(fault);
    }
    let pairs: Vec<_> = steps.iter().flat_map(pairs::of_step).collect();
    if room < 2 * pairs.len() {
        return Err((14, 0));
    }
    Ok(pairs)
}

/// How many pairs a sheet is once every row is filled, where it then has no fault.
pub fn count(sheet: &[u8]) -> Option<usize> {
    translation(sheet, EVERY_ROW, usize::MAX).ok().map(|pairs| pairs.len())
}

/// What a run of readable pairs answers: the number, the pairs executed and the file left.
pub fn run(pairs: &[Pair], start: u64, file: &[u64; 32], budget: u64) -> (u32, u64, [u64; 32]) {
    let mut left = *file;
    if pairs.len() as u64 <= start {
        let answer = if pairs.len() as u64 == start { 0 } else { 11 };
        return (answer, 0, left);
    }
    let ahead = &pairs[start as usize..];
    let taken = budget.min(ahead.len() as u64);
    ahead[..taken as usize].iter().for_each(|pair| pair.apply(&mut left));
    (if taken < ahead.len() as u64 { 15 } else { 0 }, taken, left)
}

/// The mark that comes back, 0 or 1, for the byte that was handed in: no pair of a sheet moves a lane to an end.
pub fn mark(given: u8) -> u8 {
    u8::from(given != 0)
}

/// What both in one call answer: the number, the pair count or the index, the pairs executed and the file left.
pub fn evaluation(sheet: &[u8], filled: u16, room: usize, file: &[u64], budget: u64) -> (u32, u64, u64, Vec<u64>) {
    match (translation(sheet, filled, room), <&[u64; 32]>::try_from(file)) {
        (Err((answer, index)), _) => (answer, index, 0, file.to_vec()),
        (Ok(pairs), Err(_)) => (11, pairs.len() as u64, 0, file.to_vec()),
        (Ok(pairs), Ok(file)) => {
            let (answer, executed, left) = run(&pairs, 0, file, budget);
            (answer, pairs.len() as u64, executed, left.to_vec())
        }
    }
}
