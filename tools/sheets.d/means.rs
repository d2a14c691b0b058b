//! How many pairs a constant step is, by document 01's recipe and with one pair where one will do.

use crate::chance::Chance;
use crate::pairs::{of_half, of_words};
use crate::step::{steps_of, Step, STEP};
use std::process::ExitCode;

/// Random constants, as random sheets have them.
const RANDOM: usize = 100_000;

/// A line of the table.
fn line(what: &str, steps: &[Step]) {
    let halves: Vec<_> = steps.iter().filter(|step| step.kind == 0).flat_map(|step| [step.low, step.high]).collect();
    let of_one = halves.iter().filter(|half| of_half(0, **half).len() == 1).count();
    let constants = halves.len() / 2;
    let mean = |pairs: usize| pairs as f64 / constants.max(1) as f64;
    let before = mean(halves.iter().map(|half| of_words(0, *half).len()).sum());
    let now = mean(halves.iter().map(|half| of_half(0, *half).len()).sum());
    println!("| {what} | {constants} | {of_one} | {before:.2} | {now:.2} |");
}

pub fn means(files: &[&str]) -> ExitCode {
    println!("| sheet | constants | halves of one pair | pairs a constant by document 01 | one where one will do |");
    println!("|---|---|---|---|---|");
    let mut chance = Chance(6);
    line("random", &(0..RANDOM).map(|_| chance.step(0)).collect::<Vec<_>>());
    for file in files {
        match std::fs::read(file) {
            Ok(sheet) if sheet.len() % STEP == 0 => line(file, &steps_of(&sheet)),
            _ => {
                eprintln!("sheets: {file} is no sheet");
                return ExitCode::from(2);
            }
        }
    }
    ExitCode::SUCCESS
}
