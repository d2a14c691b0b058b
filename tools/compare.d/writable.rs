//! Writing, held to what pairs are read as: a record is refused exactly if the original reads no
//! pair so, and with 9 exactly if it would read one with another value; and the same under edition
//! B, where the names of vfma and vfms have no pair.

mod boundary;

use oracle::carried::Carried;
use oracle::damage::{Good, SORTS};
use oracle::{Edition, Names, Record, Report};
use std::process::ExitCode;

/// Whether a record has a pair, by what pairs read as, or by our answer.
#[derive(Clone, Copy, PartialEq, Debug)]
enum Standing {
    HasAPair,
    WithAnotherValue,
    HasNone,
}

fn due(carried: &Carried, edition: Edition, record: &Record) -> Standing {
    if carried.has(edition, record) {
        Standing::HasAPair
    } else if carried.has_with_another(edition, record) {
        Standing::WithAnotherValue
    } else {
        Standing::HasNone
    }
}

fn ours(edition: Edition, record: &Record) -> Standing {
    let number = match edition {
        Edition::B => boundary::B,
        Edition::C => boundary::NUMBERS_OF_C[record[2] as usize % boundary::NUMBERS_OF_C.len()],
    };
    match boundary::write(number, record, &mut [0; 2]) {
        0 => Standing::HasAPair,
        9 => Standing::WithAnotherValue,
        _ => Standing::HasNone,
    }
}

fn main() -> ExitCode {
    let names = Names::of_original();
    let carried = Carried::of_original(&names);
    let good = Good::of_original(&names);
    println!("writable: {} pairs read", carried.len());
    let mut report = Report::default();
    for edition in [Edition::C, Edition::B] {
        let mut counts = [0_u64; 3];
        let mut check = |record: &Record| {
            let got = ours(edition, record);
            let due = due(&carried, edition, record);
            report.expect(got, due, || format!("record {record:x?} under {edition:?}"));
            counts[due as usize] += 1;
        };
        good.records().for_each(&mut check);
        for (_, damaged) in SORTS {
            damaged(&good, &names, &mut check);
        }
        println!(
            "writable under {edition:?}: {} records, with a pair {}, with another value {}, \
             without {}; {} disagreements so far",
            counts.iter().sum::<u64>(),
            counts[0],
            counts[1],
            counts[2],
            report.disagreements
        );
    }
    report.status()
}
