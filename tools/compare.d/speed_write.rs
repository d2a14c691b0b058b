//! How fast records are written beside the original: the same records, in one process, in turns.

mod boundary;

use oracle::clock::{beside, tell};
use oracle::damage::{Good, SORTS};
use oracle::samples::{mixed, pairs};
use oracle::{decode, encode, record, Names, Record};
use std::hint::black_box;

/// Records of each sort that are timed.
const RECORDS: usize = 20_000;

fn main() {
    let names = Names::of_original();
    let mut good = Good::default();
    let mut accepted = Vec::new();
    for (hw1, hw2) in pairs() {
        if let Some(insn) = decode(hw1, hw2, 0x1000) {
            accepted.push(record::of_insn(&insn, &names));
            good.keep(accepted.last().expect("just pushed"));
        }
    }
    let mut damaged = Vec::new();
    let (_, one_place) = SORTS[0];
    one_place(&good, &names, &mut |record| damaged.push(*record));

    measure("accepted, shuffled", accepted, &names);
    measure("one place replaced, shuffled", damaged, &names);
}

fn measure(what: &str, mut records: Vec<Record>, names: &Names) {
    records.retain(|record| record::to_insn(record, names).is_some());
    let step = records.len() / RECORDS;
    let mut records: Vec<_> = records.into_iter().step_by(step).take(RECORDS).collect();
    records.sort_by_key(|record| record.iter().fold(0, |sum, &word| mixed(sum ^ word)));
    let insns: Vec<_> =
        records.iter().filter_map(|record| record::to_insn(record, names)).collect();
    let mut pair = [0; 2];
    let original = || {
        for insn in &insns {
            black_box(encode(insn));
        }
    };
    let ours = || {
        for record in &records {
            black_box(boundary::write(boundary::NUMBERS_OF_C[0], record, &mut pair));
        }
    };
    tell("speed_write", what, records.len(), beside(records.len(), original, ours));
}
