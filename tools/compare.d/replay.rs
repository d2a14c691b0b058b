//! The replay lists: a fixed sample of the original's answers as lines of text. tools/replay says
//! how a line is laid out.

use oracle::damage::{
    around_amounts, has_amount, with_count, with_exchanged, with_place, Good, SORTS,
};
use oracle::record::{self, place, Record, WHOLE};
use oracle::samples::{address, mixed};
use oracle::values::FEW;
use oracle::writing::Forms;
use oracle::{chosen, decode, encode, reading, Edition, Names};
use std::collections::BTreeSet;
use std::io::{BufWriter, Write};

/// About how many records of each sort of damage are taken.
const DAMAGED: u64 = 200;

type Pair = (u16, u16);

fn main() {
    let names = Names::of_original();
    let forms = Forms::new(&names);
    let words: Vec<_> = std::env::args().skip(1).collect();
    let lines: Vec<_> = match words.iter().map(String::as_str).collect::<Vec<_>>()[..] {
        ["read"] => read_lines(Edition::C, &chosen::pairs(), &names),
        ["write"] => written_lines(Edition::C, &chosen_records(&names, &forms), &names, &forms),
        ["read", "B"] => read_lines(Edition::B, &pairs_under_b(), &names),
        ["write", "B"] => {
            written_lines(Edition::B, &records_under_b(&names, &forms), &names, &forms)
        }
        _ => panic!("which list: read or write, and B for edition B"),
    };
    let mut out = BufWriter::new(std::io::stdout().lock());
    lines.iter().for_each(|line| writeln!(out, "{line}").expect("written"));
}

fn read_lines(edition: Edition, pairs: &BTreeSet<Pair>, names: &Names) -> Vec<String> {
    pairs.iter().map(|&pair| read_line(edition, pair, names)).collect()
}

fn written_lines(
    edition: Edition,
    records: &BTreeSet<Record>,
    names: &Names,
    forms: &Forms,
) -> Vec<String> {
    records.iter().map(|record| written_line(edition, record, names, forms)).collect()
}

/// One line of either list.
fn line((hw1, hw2): Pair, answer: u32, record: &Record) -> String {
    let [mnemonic, mark, address, count, places @ ..] = record;
    let places: String = places.chunks(2).map(|p| format!(" {:x} {:016x}", p[0], p[1])).collect();
    format!(
        "{hw1:04x} {hw2:04x} {address:08x} {answer:02x} {mnemonic:04x} {mark:x} {count:x}{places}"
    )
}

fn read_line(edition: Edition, (hw1, hw2): Pair, names: &Names) -> String {
    let address = address(hw1, hw2);
    let mut nothing = [0; 10];
    nothing[2] = address.into();
    if edition.withholds_pair(hw1, hw2) {
        return line((hw1, hw2), 3, &nothing);
    }
    let insn = decode(hw1, hw2, address);
    let record = insn.map_or(nothing, |insn| record::of_insn(&insn, names));
    line((hw1, hw2), reading::refusal(hw1, hw2), &record)
}

fn written_line(edition: Edition, record: &Record, names: &Names, forms: &Forms) -> String {
    if edition.withholds_record(record, names) {
        return line((0, 0), 7, record);
    }
    let pair = record::to_insn(record, names).and_then(|insn| encode(&insn));
    line(pair.unwrap_or((0, 0)), forms.refusal(record), record)
}

/// Of a list, what is withheld and every sixteenth.
fn thinned<T: Ord>(list: BTreeSet<T>, withheld: impl Fn(&T) -> bool) -> BTreeSet<T> {
    let kept = list.into_iter().enumerate().filter(|(i, item)| i % 16 == 0 || withheld(item));
    kept.map(|(_, item)| item).collect()
}

/// vfma and vfms in all their forms, the pairs one bit away from them, and a part of the others.
fn pairs_under_b() -> BTreeSet<Pair> {
    let mut pairs = thinned(chosen::pairs(), |&(hw1, hw2)| Edition::B.withholds_pair(hw1, hw2));
    pairs.extend(chosen::fused());
    pairs
}

/// The records of these pairs under C, and a part of the records under C; those of vfma and vfms
/// also with other counts and other values in their places.
fn records_under_b(names: &Names, forms: &Forms) -> BTreeSet<Record> {
    let withheld = |record: &Record| Edition::B.withholds_record(record, names);
    let mut records = thinned(chosen_records(names, forms), withheld);
    for (hw1, hw2) in pairs_under_b() {
        let insn = decode(hw1, hw2, address(hw1, hw2));
        records.extend(insn.map(|insn| record::of_insn(&insn, names)));
    }
    for record in records.clone().into_iter().filter(withheld).step_by(16) {
        records.extend([0, 1, 2, 4].map(|count| with_count(&record, count)));
        for place in 0..3 {
            records.extend(FEW.map(|value| with_place(&record, place, value)));
        }
    }
    records.retain(fits);
    records
}

/// The records of the pairs that are read, vorr with equal sources, amounts at both ends and one
/// past them, 64 and numbers outside 0 to 64 as amounts, pairwise names with Q registers, and some of
/// each sort of damage.
fn chosen_records(names: &Names, forms: &Forms) -> BTreeSet<Record> {
    let mut records = BTreeSet::new();
    for (hw1, hw2) in chosen::pairs() {
        let insn = decode(hw1, hw2, address(hw1, hw2));
        records.extend(insn.map(|insn| record::of_insn(&insn, names)));
    }
    let good = Good::of_original(names);
    for record in good.one_each().filter(|record| has_amount(record)) {
        let (low, high) = forms.amounts(record[0]).expect("an amount");
        let amounts = [low - 1, low, high, high + 1];
        records.extend(amounts.map(|n| with_place(record, 2, (WHOLE, n as u64))));
        records.extend(around_amounts(record));
    }
    let copies = records.iter().filter(|record| record[0] == names.number("vmov"));
    let spelled: Vec<_> = copies.map(|record| as_vorr(record, names)).collect();
    records.extend(spelled);
    let quads = good.one_each().map(|record| with_exchanged(record, 7));
    records.extend(quads.filter(|record| forms.refusal(record) == 5));
    for (_, damaged) in SORTS {
        let mut all = 0;
        damaged(&good, names, &mut |_| all += 1);
        let mut seen = 0;
        damaged(&good, names, &mut |record| {
            seen += 1;
            if mixed(seen) % (all / DAMAGED) == 0 && fits(record) {
                records.insert(with_short_words(record));
            }
        });
    }
    records
}

/// A vmov spelled as vorr with equal sources.
fn as_vorr(record: &Record, names: &Names) -> Record {
    let mut spelled = with_place(record, 2, (record[place(1)], record[place(1) + 1]));
    spelled[0] = names.number("vorr");
    spelled[3] = 3;
    spelled
}

/// Whether every word that writing looks at has room in a line and in a record of the port.
fn fits(record: &Record) -> bool {
    let register = |i: usize| (1..=3).contains(&record[place(i)]);
    record[0] <= 0xffff
        && record[3] <= 15
        && (0..3).all(|i| record[place(i)] <= 6 && (!register(i) || record[place(i) + 1] <= 255))
}

/// The mark and the address, which writing ignores, cut to what a line has room for.
fn with_short_words(record: &Record) -> Record {
    let mut short = *record;
    short[1] = 1 + record[1] % 2;
    short[2] = record[2] % (1 << 32);
    short
}
