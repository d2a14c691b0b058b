//! How fast pairs are listed beside the original's Display: the same pairs, in one process, in turns.

mod boundary;

use oracle::clock::{beside, tell};
use oracle::samples::{pairs, shuffled};
use oracle::{decode, isa::Insn};
use std::fmt::Write;
use std::hint::black_box;

/// The most pairs that one listing has.
const PAIRS: usize = 16_384;

/// Room for every listing.
const ENOUGH: usize = 901_190;

fn main() {
    let mut all: Vec<_> = pairs().step_by(97).collect();
    let is_read = |&(hw1, hw2): &(u16, u16)| decode(hw1, hw2, 0).is_some();
    let mut accepted: Vec<_> = all.iter().copied().filter(is_read).collect();
    all.sort_by_key(shuffled);
    accepted.sort_by_key(shuffled);
    all.truncate(PAIRS);
    accepted.truncate(PAIRS);

    let insns: Vec<_> = accepted.iter().filter_map(|&(hw1, hw2)| decode(hw1, hw2, 0)).collect();
    let mut text = String::new();
    measure("accepted, beside Display alone", &accepted, false, || display(&insns, &mut text));
    let line = "accepted, beside decoding and a line";
    measure(line, &accepted, false, || lines(&accepted, &mut text));
    let exact = "accepted, the same, in a buffer that just fits";
    measure(exact, &accepted, true, || lines(&accepted, &mut text));
    measure("accepted and refused, the same", &all, false, || lines(&all, &mut text));
}

/// Ours has room for every listing, or just for this one.
fn measure(what: &str, pairs: &[(u16, u16)], exact: bool, original: impl FnMut()) {
    let bytes: Vec<u8> =
        pairs.iter().flat_map(|&(hw1, hw2)| [hw1, hw2]).flat_map(u16::to_le_bytes).collect();
    let mut out = vec![0; ENOUGH];
    if exact {
        let (_, length) = boundary::list(&bytes, &mut out);
        out.truncate(length as usize);
    }
    let ours = || {
        let answer = boundary::list(&bytes, &mut out);
        assert_eq!(black_box(answer).0, 0);
    };
    tell("speed_list", what, pairs.len(), beside(pairs.len(), original, ours));
}

/// The original's text of records that are already read.
fn display(insns: &[Insn], text: &mut String) {
    text.clear();
    for insn in insns {
        write!(text, "{insn}").expect("a String takes all text");
    }
    black_box(&text);
}

/// A line for each pair, as ours has it but for the spelling of the operands.
fn lines(pairs: &[(u16, u16)], text: &mut String) {
    text.clear();
    for (i, &(hw1, hw2)) in pairs.iter().enumerate() {
        let line = match decode(hw1, hw2, 0) {
            Some(insn) => writeln!(text, "{i} {hw1:04x} {hw2:04x} {insn}"),
            None => writeln!(text, "{i} {hw1:04x} {hw2:04x} refused"),
        };
        line.expect("a String takes all text");
    }
    black_box(&text);
}
