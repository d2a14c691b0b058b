//! Reading: every pair of the two spaces, and a sample of all others, held against the original;
//! and under edition B, where the pairs of vfma and vfms alone differ.

mod boundary;

use oracle::samples::{address, mixed, pairs};
use oracle::{decode, family, reading, record, Edition, Family, Names, Record, Report};
use std::process::ExitCode;

/// What a record is filled with before the call, to see that a refusal leaves it alone.
const FILL: u64 = 0xa5a5_5a5a_c3c3_3c3c;
/// Second halfwords for each first one outside the two spaces.
const OUTSIDE: u64 = 64;

/// The pairs of each family, then those of none, by answer: accepted, then 1 to 6, as counted
/// once over the whole space.
const KNOWN: [(&str, Option<Family>, [u64; 7]); 5] = [
    ("same", Some(Family::Same), [6_303_744, 0, 0, 5_439_488, 0, 589_824, 4_444_160]),
    ("different", Some(Family::Different), [999_424, 0, 0, 753_664, 0, 0, 1_392_640]),
    ("shift", Some(Family::Shift), [2_600_960, 0, 1_376_256, 2_211_840, 0, 0, 1_675_264]),
    ("modified-immediate", Some(Family::Modimm), [379_968, 0, 0, 16_384, 1_280, 0, 126_656]),
    ("no family", None, [0, 5_242_880, 0, 0, 0, 0, 0]),
];

/// What a call leaves.
#[derive(Clone, Copy, PartialEq, Debug)]
enum Reading {
    Read(Record),
    Refused(u32),
    RefusedAndTouched(u32, Record),
}

fn ours(edition: u32, hw1: u16, hw2: u16, address: u32) -> Reading {
    let mut record = [FILL; 10];
    match boundary::read(edition, hw1, hw2, address, &mut record) {
        0 => Reading::Read(record),
        number if record == [FILL; 10] => Reading::Refused(number),
        number => Reading::RefusedAndTouched(number, record),
    }
}

fn theirs(hw1: u16, hw2: u16, address: u32, names: &Names) -> Reading {
    let insn = decode(hw1, hw2, address);
    let refusal = reading::refusal(hw1, hw2);
    assert_eq!(insn.is_none(), refusal != 0, "document 01 and the original on {hw1:04x} {hw2:04x}");
    if let Some(insn) = insn {
        let named = Edition::B.withholds_name(insn.mnemonic);
        assert_eq!(named, Edition::B.withholds_pair(hw1, hw2), "vfma or vfms, {hw1:04x} {hw2:04x}");
    }
    insn.map_or(Reading::Refused(refusal), |insn| Reading::Read(record::of_insn(&insn, names)))
}

/// The answer's number, 0 for a pair that is read.
fn number(reading: &Reading) -> u32 {
    match *reading {
        Reading::Read(_) => 0,
        Reading::Refused(number) | Reading::RefusedAndTouched(number, _) => number,
    }
}

/// One of the numbers that name edition C.
fn some_c(hw2: u16) -> u32 {
    boundary::NUMBERS_OF_C[usize::from(hw2) % boundary::NUMBERS_OF_C.len()]
}

/// Pairs whose answer under B is another than under C, by C's answer: accepted, then 1 to 6.
const WITHHELD: [u64; 7] = [73_728, 0, 0, 0, 0, 0, 57_344];

fn main() -> ExitCode {
    let names = Names::of_original();
    let mut report = Report::default();
    let mut counts = [[0; 7]; 5];
    let mut withheld = [0; 7];
    let mut compared = 0;
    for (hw1, hw2) in pairs() {
        let address = address(hw1, hw2);
        let got = ours(some_c(hw2), hw1, hw2, address);
        let row = KNOWN.iter().position(|known| known.1 == family(hw1, hw2)).expect("a row");
        if let Some(count) = counts[row].get_mut(number(&got) as usize) {
            *count += 1;
        }
        let due = theirs(hw1, hw2, address, &names);
        report.expect(got, due, || format!("pair {hw1:04x} {hw2:04x}"));
        let under_b = ours(boundary::B, hw1, hw2, address);
        let due = if Edition::B.withholds_pair(hw1, hw2) { Reading::Refused(3) } else { due };
        report.expect(under_b, due, || format!("pair {hw1:04x} {hw2:04x} under B"));
        if under_b != got {
            withheld[number(&got) as usize % 7] += 1;
        }
        compared += 1;
    }
    for ((name, _, known), counted) in KNOWN.iter().zip(&counts) {
        println!("  {name}: accepted {}, refused 1 to 6: {:?}", counted[0], &counted[1..]);
        report.expect(counted, known, || format!("the counts of {name}"));
    }
    report.expect(withheld, WITHHELD, || "the pairs that differ under B".to_string());
    let outside = outside(&mut report);
    println!(
        "read: {compared} pairs compared, {} accepted; {outside} others refused; {} disagreements",
        counts.iter().map(|row| row[0]).sum::<u64>(),
        report.disagreements
    );
    println!(
        "read under B: {} pairs differ, those of vfma and vfms, all 3: \
         under C {} accepted, {} refused with 6",
        withheld.iter().sum::<u64>(),
        withheld[0],
        withheld[6]
    );
    report.status()
}

/// Pairs outside the two spaces are refused with 1. How many were tried.
fn outside(report: &mut Report) -> u64 {
    let mut tried = 0;
    for hw1 in (0..=u16::MAX).filter(|hw1| !matches!(hw1 & 0xef80, 0xef00 | 0xef80)) {
        for i in 0..OUTSIDE {
            let hw2 = mixed(u64::from(hw1) * OUTSIDE + i) as u16;
            for edition in [some_c(hw2), boundary::B] {
                let got = ours(edition, hw1, hw2, address(hw1, hw2));
                report.expect(got, Reading::Refused(1), || format!("pair {hw1:04x} {hw2:04x}"));
            }
            tried += 1;
        }
    }
    tried
}
