//! Damaged records: good ones with places, counts and mnemonics replaced.

use crate::record::{self, place, D, FLOAT, Q, WHOLE};
use crate::samples::{address, mixed, pairs};
use crate::values::{self, Place, AROUND_AMOUNTS, COUNTS, FEW};
use crate::{decode, Names, Record};
use std::collections::BTreeMap;

/// Some good records of each mnemonic and kinds of its places: the first ones and the last.
#[derive(Default)]
pub struct Good(BTreeMap<[u64; 4], Vec<Record>>);

impl Good {
    const KEPT: usize = 4;

    /// What reading gives of every pair.
    pub fn of_original(names: &Names) -> Good {
        let mut good = Good::default();
        for (hw1, hw2) in pairs() {
            if let Some(insn) = decode(hw1, hw2, address(hw1, hw2)) {
                good.keep(&record::of_insn(&insn, names));
            }
        }
        good
    }

    pub fn keep(&mut self, record: &Record) {
        let sort = [record[0], record[place(0)], record[place(1)], record[place(2)]];
        let kept = self.0.entry(sort).or_default();
        kept.truncate(Good::KEPT - 1);
        kept.push(*record);
    }

    pub fn records(&self) -> impl Iterator<Item = &Record> {
        self.0.values().flatten()
    }

    /// One record of each sort.
    pub fn one_each(&self) -> impl Iterator<Item = &Record> {
        self.0.values().map(|kept| &kept[0])
    }
}

type Visit<'a> = &'a mut dyn FnMut(&Record);

/// Every sort of damage, with what it is called.
pub const SORTS: [(&str, fn(&Good, &Names, Visit)); 8] = [
    ("one place replaced", one_place),
    ("D and Q exchanged", exchanged),
    ("all places replaced", all_places),
    ("counts and mnemonics", counts),
    ("numbers around immediates", immediates),
    ("floats around immediates", floats),
    ("at random", at_random),
    ("numbers around amounts", amounts),
];

/// Each place of each good record by each kind, and by each bound of it.
fn one_place(good: &Good, _: &Names, visit: Visit) {
    let places = values::places();
    for record in good.records() {
        for i in 0..3 {
            places.iter().for_each(|&value| visit(&with_place(record, i, value)));
        }
    }
}

/// Each good record with D and Q exchanged in some of its places, or in all.
fn exchanged(good: &Good, _: &Names, visit: Visit) {
    for record in good.records() {
        (1..8).for_each(|which| visit(&with_exchanged(record, which)));
    }
}

/// The record with D and Q exchanged in the places whose bits are set.
pub fn with_exchanged(record: &Record, which: u8) -> Record {
    let mut damaged = *record;
    for i in (0..3).filter(|i| which >> i & 1 == 1) {
        damaged = match (record[place(i)], record[place(i) + 1]) {
            (D, n) => with_place(&damaged, i, (Q, n / 2)),
            (Q, n) => with_place(&damaged, i, (D, n * 2)),
            _ => damaged,
        };
    }
    damaged
}

/// Each mnemonic with every mix of a few values in the three places, as two operands and as three.
fn all_places(_: &Good, names: &Names, visit: Visit) {
    for number in 0..names.list.len() as u64 {
        for (first, second) in FEW.iter().flat_map(|a| FEW.iter().map(move |b| (a, b))) {
            for third in FEW {
                for count in [2, 3] {
                    visit(&[
                        number, 1, 0, count, first.0, first.1, second.0, second.1, third.0, third.1,
                    ]);
                }
            }
        }
    }
}

/// Each good record with other counts, and with mnemonics that are none.
fn counts(good: &Good, names: &Names, visit: Visit) {
    for record in good.records() {
        for count in COUNTS {
            let damaged = with_count(record, count);
            visit(&damaged);
            values::unknown(names).iter().for_each(|&n| visit(&with_mnemonic(&damaged, n)));
            // A third operand where the mnemonic has two.
            FEW.iter().for_each(|&third| visit(&with_place(&damaged, 2, third)));
        }
    }
}

/// Each modified-immediate name with the numbers around every immediate of any.
fn immediates(_: &Good, names: &Names, visit: Visit) {
    let numbers = values::around_immediates();
    for name in values::immediate_names() {
        for register in [(D, 31), (Q, 0)] {
            for &value in &numbers {
                visit(&[names.number(name), 1, 0, 2, register.0, register.1, WHOLE, value, 0, 0]);
            }
        }
    }
}

/// The same with the floats around every immediate.
fn floats(_: &Good, names: &Names, visit: Visit) {
    let floats = values::around_floats();
    for name in values::immediate_names() {
        for register in [(D, 16), (Q, 15)] {
            for &value in &floats {
                visit(&[names.number(name), 1, 0, 2, register.0, register.1, FLOAT, value, 0, 0]);
            }
        }
    }
}

/// Each good record with one to three of its words replaced by chance.
fn at_random(good: &Good, _: &Names, visit: Visit) {
    let places = values::places();
    for (n, record) in good.records().enumerate() {
        for turn in 0..1000 {
            visit(&by_chance(record, n as u64 * 1000 + turn, &places));
        }
    }
}

/// Each good record that has an amount, with 64 and thirteen numbers outside 0 to 64 in its place, as
/// it is and with registers that do not fit.
fn amounts(good: &Good, _: &Names, visit: Visit) {
    for record in good.records().filter(|record| has_amount(record)) {
        for damaged in around_amounts(record) {
            visit(&damaged);
            visit(&with_exchanged(&damaged, 1));
        }
    }
}

/// Whether the third place is a whole number.
pub fn has_amount(record: &Record) -> bool {
    record[place(2)] == WHOLE
}

/// The record with 64 and with thirteen numbers outside 0 to 64 for its amount.
pub fn around_amounts(record: &Record) -> [Record; AROUND_AMOUNTS.len()] {
    AROUND_AMOUNTS.map(|n| with_place(record, 2, (WHOLE, n as u64)))
}

fn by_chance(record: &Record, seed: u64, places: &[Place]) -> Record {
    let mut damaged = *record;
    for turn in 0..=seed % 3 {
        let chance = mixed(seed * 3 + turn);
        let (what, which) = ((chance >> 32) as usize, chance as u32 as usize);
        damaged = match what % 5 {
            i @ 0..3 => with_place(&damaged, i, places[which % places.len()]),
            3 => with_count(&damaged, which as u64 % 4),
            _ => with_mnemonic(&damaged, which as u64 % 350),
        };
    }
    with_junk(&damaged, seed)
}

pub fn with_place(record: &Record, i: usize, (kind, value): Place) -> Record {
    let mut damaged = *record;
    damaged[place(i)] = kind;
    damaged[place(i) + 1] = value;
    damaged
}

pub fn with_count(record: &Record, count: u64) -> Record {
    let mut damaged = *record;
    damaged[3] = count;
    damaged
}

fn with_mnemonic(record: &Record, number: u64) -> Record {
    let mut damaged = *record;
    damaged[0] = number;
    damaged
}

/// The record with its mark, its address and its places past the count filled with what writing
/// is to ignore.
pub fn with_junk(record: &Record, seed: u64) -> Record {
    let mut filled = *record;
    filled[1] = [0, 1, 2, 3, mixed(seed)][seed as usize % 5];
    filled[2] = mixed(seed + 1);
    for i in record[3].min(3) as usize..3 {
        filled = with_place(&filled, i, FEW[mixed(seed + i as u64) as usize % FEW.len()]);
    }
    filled
}
