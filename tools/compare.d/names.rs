//! The list of mnemonics: what the program named by the argument prints, held against the
//! original's names numbered by first appearance.

use oracle::{Names, Report};
use std::process::{Command, ExitCode};

fn main() -> ExitCode {
    let program = std::env::args().nth(1).expect("the program that prints our names");
    let output = Command::new(&program).output().expect("our program runs");
    let text = String::from_utf8_lossy(&output.stdout);
    let mut lines = text.lines();
    let mut report = Report::default();

    let names = Names::of_original();
    let longest = names.list.iter().map(|name| name.len()).max().unwrap_or(0);
    let head = [format!("mnemonics {}", names.list.len()), format!("longest {longest}")];
    let body = names.list.iter().enumerate().map(|(number, name)| format!("{number} {name}"));
    for (at, theirs) in head.into_iter().chain(body).enumerate() {
        report.expect(lines.next().unwrap_or("nothing"), &theirs, || format!("line {}", at + 1));
    }
    let extra = lines.filter(|line| !line.starts_with("float ")).count();
    report.expect(extra, 0, || "lines after the names".into());

    println!(
        "names: {} mnemonics compared, the longest {longest} bytes, {} disagreements",
        names.list.len(),
        report.disagreements
    );
    report.status()
}
