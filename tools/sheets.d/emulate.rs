//! Our translations run by an ARM emulator, held against the model's rows and against our run.

use crate::boundary;
use crate::chance::{sheet_of, Chance};
use crate::halves;
use crate::model;
use crate::report::Report;
use crate::step::Step;
use std::io::Write;
use std::process::{Command, ExitCode, Stdio};
use std::thread;

struct Program {
    steps: Vec<Step>,
    code: Vec<u16>,
    file: [u64; 32],
    mark: u8,
}

/// The steps translated by ours, with just the rows filled that they need; each third program has the mark yes.
fn program(chance: &mut Chance, index: usize, steps: Vec<Step>) -> Program {
    let mut code = vec![0; 40 * steps.len()];
    let (answer, pairs) = boundary::translate(&sheet_of(&steps), model::needed(&steps), &mut code);
    assert_eq!(answer, 0, "a sheet that keeps the rules and has its rows is translated");
    code.truncate(2 * pairs as usize);
    Program { steps, code, file: chance.file(), mark: u8::from(index % 3 == 2) }
}

/// A random program; each fiftieth has 256 steps.
fn random(chance: &mut Chance, index: usize) -> Program {
    let count = if index % 50 == 0 { 256 } else { chance.count().max(1) };
    let steps = chance.steps(count);
    program(chance, index, steps)
}

/// What the emulator leaves of each file, and the mark after it as one word more.
fn emulated(harness: &str, programs: &[Program]) -> Vec<[u64; 33]> {
    let mut given = Vec::new();
    for program in programs {
        given.extend((program.code.len() as u32 / 2).to_le_bytes());
        given.extend(u32::from(program.mark).to_le_bytes());
        given.extend(program.file.iter().flat_map(|word| word.to_le_bytes()));
        given.extend(program.code.iter().flat_map(|half| half.to_le_bytes()));
    }
    let mut command = Command::new("qemu-arm");
    let piped = command.arg(harness).stdin(Stdio::piped()).stdout(Stdio::piped());
    let mut child = piped.spawn().expect("qemu-arm runs");
    let mut into = child.stdin.take().expect("a pipe");
    let writer = thread::spawn(move || into.write_all(&given).expect("the programs are read"));
    let output = child.wait_with_output().expect("qemu-arm ends");
    writer.join().expect("written");
    let words: Vec<u64> = output.stdout.chunks(8).map(|b| u64::from_le_bytes(b.try_into().expect("8 bytes"))).collect();
    words.chunks(33).map(|left| left.try_into().expect("33 words")).collect()
}

pub fn emulate(harness: &str, count: usize) -> ExitCode {
    let mut chance = Chance(2);
    let mut report = Report::default();
    let programs: Vec<_> = (0..count).map(|k| random(&mut chance, k)).collect();
    held(harness, &mut report, "", &programs);
    let values = halves::values();
    let all: Vec<_> = values.iter().copied().collect();
    let constants = all.chunks(14).map(halves::constants).enumerate();
    let programs: Vec<_> = constants.map(|(k, steps)| program(&mut chance, k, steps)).collect();
    held(harness, &mut report, &format!("{}: ", halves::told(&values)), &programs);
    report.status()
}

/// Programs run by the emulator, and what it leaves compared with the model's rows and with our run; a line says so.
fn held(harness: &str, report: &mut Report, what: &str, programs: &[Program]) {
    let before = report.disagreements;
    let left = emulated(harness, programs);
    report.expect(left.len(), programs.len(), || "files that the emulator left".to_owned());
    for (program, [left @ .., mark]) in programs.iter().zip(&left) {
        let rows = model::meaning(&program.steps, model::rows_of(&program.file));
        report.expect(model::rows_of(left), rows, || format!("emulated rows of {:x?}", program.steps));
        report.expect(*mark, program.mark.into(), || format!("emulated mark of {:x?}", program.steps));
        let mut ours = program.file;
        let ended = boundary::run(&program.code, 0, &mut ours, u64::MAX, program.mark);
        let due = (0, program.code.len() as u64 / 2, program.mark);
        report.expect(ended, due, || format!("{:x?}", program.steps));
        report.expect(ours, *left, || format!("our file of {:x?}", program.steps));
    }
    let steps: usize = programs.iter().map(|program| program.steps.len()).sum();
    let pairs: usize = programs.iter().map(|program| program.code.len() / 2).sum();
    let found = report.disagreements - before;
    println!("emulated {what}{} programs, {steps} steps, {pairs} pairs: {found} disagreements", programs.len());
}
