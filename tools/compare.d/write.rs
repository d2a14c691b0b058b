//! Writing: every record that reading gives, and damaged ones, held against the original; and under
//! edition B, where the names of vfma and vfms alone differ.

mod boundary;

use oracle::damage::{with_junk, Good, SORTS};
use oracle::samples::{address, pairs};
use oracle::writing::Forms;
use oracle::{decode, encode, record, Edition, Names, Record, Report};
use std::process::ExitCode;

/// What a pair is filled with before the call, to see that a refusal leaves it alone.
const FILL: [u16; 2] = [0xa5c3, 0x3c5a];

/// Records whose answer under B is another than under C, by C's answer, as counted once.
const WITHHELD: [u64; 10] = [75_115, 0, 0, 0, 0, 0, 0, 0, 37_499, 0];

/// What a call leaves.
#[derive(Clone, Copy, PartialEq, Debug)]
enum Writing {
    Written(u16, u16),
    Refused(u32),
    RefusedAndTouched(u32, [u16; 2]),
}

fn ours(edition: u32, record: &Record) -> Writing {
    let mut pair = FILL;
    match boundary::write(edition, record, &mut pair) {
        0 => Writing::Written(pair[0], pair[1]),
        number if pair == FILL => Writing::Refused(number),
        number => Writing::RefusedAndTouched(number, pair),
    }
}

/// The answer's number, 0 for a record that is written.
fn number(writing: Writing) -> u32 {
    match writing {
        Writing::Written(..) => 0,
        Writing::Refused(number) | Writing::RefusedAndTouched(number, _) => number,
    }
}

/// Records tried, by our answer: those compared with the original, and those that it can't hold,
/// so that our answer is only held to document 01.
#[derive(Default)]
struct Counts {
    compared: [u64; 10],
    beyond: [u64; 10],
}

impl Counts {
    fn tell(&self, what: &str) {
        let by_number = |counts: &[u64; 10]| [7, 8, 5, 9].map(|number: usize| counts[number]);
        println!(
            "  {what}: compared {}, written {}, refused 7 8 5 9: {:?}; beyond the original {:?}",
            self.compared.iter().sum::<u64>(),
            self.compared[0],
            by_number(&self.compared),
            by_number(&self.beyond),
        );
    }

    fn add(&mut self, more: &Counts) {
        (0..10).for_each(|i| self.compared[i] += more.compared[i]);
        (0..10).for_each(|i| self.beyond[i] += more.beyond[i]);
    }
}

struct Check<'a> {
    names: &'a Names,
    forms: Forms,
    report: Report,
    counts: Counts,
    /// Records whose answer under B is another than under C, by the answer under C.
    withheld: [u64; 10],
    tried: usize,
}

impl Check<'_> {
    /// One record. Acceptance and the pair are the original's; the number is the one worked out
    /// from document 01, which has to refuse just what the original refuses. What is due.
    fn record(&mut self, record: &Record) -> Writing {
        let c = boundary::NUMBERS_OF_C[self.tried % boundary::NUMBERS_OF_C.len()];
        self.tried += 1;
        let got = ours(c, record);
        let refusal = self.forms.refusal(record);
        let insn = record::to_insn(record, self.names);
        let written = insn.and_then(|insn| encode(&insn));
        assert_eq!(written.is_none(), refusal != 0, "document 01 and the original on {record:x?}");
        let due =
            written.map_or(Writing::Refused(refusal), |(hw1, hw2)| Writing::Written(hw1, hw2));
        self.report.expect(got, due, || format!("record {record:x?}"));
        self.under_b(record, got, due);
        let counts = match insn {
            Some(_) => &mut self.counts.compared,
            None => &mut self.counts.beyond,
        };
        if let Some(count) = counts.get_mut(number(got) as usize) {
            *count += 1;
        }
        due
    }

    /// The same record under B: 7 where it has a name of vfma or vfms, else as under C.
    fn under_b(&mut self, record: &Record, under_c: Writing, due: Writing) {
        let withheld = Edition::B.withholds_record(record, self.names);
        let due = if withheld { Writing::Refused(7) } else { due };
        let got = ours(boundary::B, record);
        self.report.expect(got, due, || format!("record {record:x?} under B"));
        if got != under_c {
            self.withheld[number(under_c) as usize % 10] += 1;
        }
    }
}

fn main() -> ExitCode {
    let names = Names::of_original();
    let forms = Forms::new(&names);
    let counts = Counts::default();
    let report = Report::default();
    let mut check = Check { names: &names, forms, report, counts, withheld: [0; 10], tried: 0 };
    let mut total = Counts::default();
    let good = written_back(&mut check);
    check.counts.tell("what reading gives");
    total.add(&std::mem::take(&mut check.counts));
    for (what, damaged) in SORTS {
        damaged(&good, &names, &mut |record| {
            check.record(record);
        });
        check.counts.tell(what);
        total.add(&std::mem::take(&mut check.counts));
    }
    println!(
        "write: {} records compared, {} written; {} more beyond the original; {} disagreements",
        total.compared.iter().sum::<u64>(),
        total.compared[0],
        total.beyond.iter().sum::<u64>(),
        check.report.disagreements
    );
    check.report.expect(check.withheld, WITHHELD, || "the records that differ under B".to_string());
    println!(
        "write under B: {} records differ, those of vfma and vfms, all 7: \
         under C {} written, {} refused with 8",
        check.withheld.iter().sum::<u64>(),
        check.withheld[0],
        check.withheld[8]
    );
    check.report.status()
}

/// Every record that reading gives is written as the pair that was read, whatever stands in the
/// mark, the address and the places past the count. Some of them, to be damaged.
fn written_back(check: &mut Check) -> Good {
    let mut good = Good::default();
    for (seed, (hw1, hw2)) in pairs().enumerate() {
        let Some(insn) = decode(hw1, hw2, address(hw1, hw2)) else { continue };
        let record = record::of_insn(&insn, check.names);
        good.keep(&record);
        let given = if seed % 2 == 0 { record } else { with_junk(&record, seed as u64) };
        let due = check.record(&given);
        assert_eq!(due, Writing::Written(hw1, hw2), "the original writes back what it read");
    }
    good
}
