//! The mnemonics, numbered from 0 by first appearance in the original's tables.

use original::isa::t32_simd::{DIFF_ROWS, MODIMM_NAMES, SAME3, SHIFT_ROWS, VMOVL_NAMES};
use std::collections::HashMap;

pub struct Names {
    pub list: Vec<&'static str>,
    numbers: HashMap<&'static str, u64>,
}

impl Names {
    pub fn of_original() -> Names {
        let mut names = Names { list: Vec::new(), numbers: HashMap::new() };
        names.add(SAME3.as_flattened());
        SHIFT_ROWS.iter().for_each(|row| names.add(&row.names));
        names.add(VMOVL_NAMES.as_flattened());
        names.add(MODIMM_NAMES.as_flattened());
        DIFF_ROWS.iter().for_each(|row| names.add(&row.names));
        names.add(&["vmov"]);
        names
    }

    /// Adds what is new among the cells; a blank cell is no name.
    fn add(&mut self, cells: &[&'static str]) {
        for &cell in cells {
            if !cell.is_empty() && !self.numbers.contains_key(cell) {
                self.numbers.insert(cell, self.list.len() as u64);
                self.list.push(cell);
            }
        }
    }

    pub fn number(&self, name: &str) -> u64 {
        self.numbers[name]
    }

    /// The name of a mnemonic's number, if there is one.
    pub fn name(&self, number: u64) -> Option<&'static str> {
        self.list.get(usize::try_from(number).ok()?).copied()
    }
}
