//! How fast sheets are translated and their pairs run, by the number of steps; beside it the model, which is plain
//! Rust and whose run has the pairs read already. All measurements take turns. The pairs counted are those that ours
//! writes, whatever its recipe for constants.

use crate::answers;
use crate::boundary;
use crate::chance::{sheet_of, Chance};
use crate::model::EVERY_MARK;
use crate::pairs::{code_of, ones, Pair};
use crate::step::Step;
use std::hint::black_box;
use std::process::ExitCode;
use std::time::Instant;

const ROUNDS: usize = 1001;
const SIZES: [usize; 3] = [16, 64, 256];

/// The sorts of halves that constants are measured apart for.
const HALVES: [&str; 3] =
    ["constants, one pair a half", "constants, longer, words alike", "constants, longer, words differ"];

/// Steps handled in one measurement.
const STEPS: usize = 1_024;

/// Halfwords of a step at most.
const MOST: usize = 40;

/// A sheet with its pairs by the model and its halfwords by ours.
struct Sheet {
    what: &'static str,
    steps: usize,
    sheet: Vec<u8>,
    pairs: Vec<Pair>,
    code: Vec<u16>,
}

impl Sheet {
    fn new(what: &'static str, steps: &[Step]) -> Sheet {
        let sheet = sheet_of(steps);
        let pairs = answers::translation(&sheet, EVERY_MARK, usize::MAX).expect("a sheet that keeps the rules");
        let mut code = vec![0; MOST * steps.len()];
        let (_, count) = boundary::translate(&sheet, EVERY_MARK, &mut code);
        code.truncate(2 * count as usize);
        Sheet { what, steps: steps.len(), sheet, pairs, code }
    }

    /// Pairs of our translation.
    fn count(&self) -> usize {
        self.code.len() / 2
    }

    /// One turn: nanoseconds a step and a pair, ours and the model's.
    fn turn(&self) -> [f64; 4] {
        let times = STEPS / self.steps;
        let mut out = vec![0; MOST * self.steps];
        let mut file = [0x0123_4567_89ab_cdef; 32];
        let translation = timed(times, || {
            black_box(boundary::translate(black_box(&self.sheet), EVERY_MARK, &mut out));
        });
        let theirs = timed(times, || {
            let pairs = answers::translation(black_box(&self.sheet), EVERY_MARK, usize::MAX);
            black_box(pairs.map(|pairs| code_of(&pairs)).is_ok());
        });
        let run = timed(times, || {
            black_box(boundary::run(black_box(&self.code), 0, &mut file, u64::MAX, 0));
        });
        let interpreted = timed(times, || {
            file = black_box(answers::run(black_box(&self.pairs), 0, &file, u64::MAX)).2;
        });
        let steps = self.steps as f64;
        [translation / steps, theirs / steps, run / self.count() as f64, interpreted / self.pairs.len() as f64]
    }
}

/// Nanoseconds a call.
fn timed(times: usize, mut work: impl FnMut()) -> f64 {
    let start = Instant::now();
    (0..times).for_each(|_| work());
    start.elapsed().as_nanos() as f64 / times as f64
}

pub fn speed() -> ExitCode {
    let mut chance = Chance(4);
    let mixed: Vec<_> = (0..256).map(|k| chance.step(k as u8 % 16 % 15)).collect();
    let constants: Vec<_> = (0..256).map(|_| chance.step(0)).collect();
    let kinds = [("all kinds", mixed), ("constants", constants)];
    let by_size = kinds.iter().flat_map(|(what, steps)| SIZES.map(|size| Sheet::new(what, &steps[..size])));
    let by_half = HALVES.iter().enumerate().map(|(k, what)| Sheet::new(what, &of_sort(&mut chance, k)));
    let sheets: Vec<_> = by_size.chain(by_half).collect();
    let mut turns = vec![Vec::new(); sheets.len()];
    for _ in 0..=ROUNDS {
        for (sheet, turns) in sheets.iter().zip(&mut turns) {
            turns.push(sheet.turn());
        }
    }
    println!("Median of {ROUNDS} rounds in turns.");
    println!("| sheet | steps | pairs | ns a step translated | model | steps a second | ns a pair run | model | pairs a second |");
    println!("|---|---|---|---|---|---|---|---|---|");
    for (sheet, turns) in sheets.iter().zip(&turns) {
        let [step, step_model, pair, pair_model] = [0, 1, 2, 3].map(|k| median(&turns[1..], k));
        println!(
            "| {} | {} | {} | {step:.1} | {step_model:.1} | {:.1} million | {pair:.1} | {pair_model:.1} | {:.1} million |",
            sheet.what,
            sheet.steps,
            sheet.count(),
            1e3 / step,
            1e3 / pair
        );
    }
    ExitCode::SUCCESS
}

/// 256 constants both of whose halves are of that sort.
fn of_sort(chance: &mut Chance, sort: usize) -> Vec<Step> {
    let mut half = || loop {
        let value = chance.half();
        let alike = value as u32 == (value >> 32) as u32;
        let found = if ones().contains_key(&value) { 0 } else { 2 - usize::from(alike) };
        if found == sort {
            return value;
        }
    };
    (0..=255).map(|k| Step { target: k % 14, low: half(), high: half(), ..Step::default() }).collect()
}

fn median(turns: &[[f64; 4]], k: usize) -> f64 {
    let mut times: Vec<_> = turns.iter().map(|turn| turn[k]).collect();
    times.sort_by(f64::total_cmp);
    times[times.len() / 2]
}
