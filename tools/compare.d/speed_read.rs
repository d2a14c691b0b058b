//! How fast pairs are read beside the original: the same pairs, in one process, in turns.

mod boundary;

use oracle::clock::{beside, tell};
use oracle::decode;
use oracle::samples::{first_halfwords, shuffled};
use std::hint::black_box;

fn main() {
    let mut all: Vec<(u16, u16)> = first_halfwords()
        .step_by(31)
        .flat_map(|hw1| (0..=u16::MAX).map(move |hw2| (hw1, hw2)))
        .collect();
    let is_read = |&(hw1, hw2): &(u16, u16)| decode(hw1, hw2, 0).is_some();
    let mut accepted: Vec<_> = all.iter().copied().filter(is_read).collect();
    measure("accepted and refused, in order", &all);
    measure("accepted, in order", &accepted);
    all.sort_by_key(shuffled);
    accepted.sort_by_key(shuffled);
    measure("accepted and refused, shuffled", &all);
    measure("accepted, shuffled", &accepted);
}

fn measure(what: &str, pairs: &[(u16, u16)]) {
    let mut record = [0; 10];
    let original = || {
        for &(hw1, hw2) in pairs {
            black_box(decode(hw1, hw2, 0x1000));
        }
    };
    let ours = || {
        for &(hw1, hw2) in pairs {
            black_box(boundary::read(boundary::NUMBERS_OF_C[0], hw1, hw2, 0x1000, &mut record));
        }
    };
    tell("speed_read", what, pairs.len(), beside(pairs.len(), original, ours));
}
