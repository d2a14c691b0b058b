//! Sum sheets by a model of document 01 beside ours; tools/sheets says what the words do.

mod answers;
mod boundary;
mod chance;
mod compare;
mod counts;
mod emulate;
mod halves;
mod lists;
mod means;
mod model;
mod pairs;
#[path = "../compare.d/oracle/report.rs"]
mod report;
mod sample;
mod speed;
mod step;

use std::process::ExitCode;

fn main() -> ExitCode {
    let words: Vec<String> = std::env::args().skip(1).collect();
    let count = || words[words.len() - 1].parse().expect("a number");
    match words.iter().map(String::as_str).collect::<Vec<_>>()[..] {
        ["compare", _] => compare::compare(count()),
        ["emulate", harness, _] => emulate::emulate(harness, count()),
        ["halves"] => halves::halves(),
        ["means", ref files @ ..] => means::means(files),
        ["sample"] => sample::sample(),
        ["speed"] => speed::speed(),
        _ => panic!("compare COUNT, emulate HARNESS COUNT, halves, means FILE.., sample or speed"),
    }
}
