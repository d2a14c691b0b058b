//! What a comparison covered, counted.

use std::collections::{BTreeMap, BTreeSet};

#[derive(Default)]
pub struct Counts {
    numbers: BTreeMap<(&'static str, u64), u64>,
    forms: BTreeMap<&'static str, BTreeSet<Vec<u8>>>,
}

impl Counts {
    /// One more with this number, of those that the words name.
    pub fn add(&mut self, what: &'static str, number: u64) {
        *self.numbers.entry((what, number)).or_default() += 1;
    }

    /// A form seen, of those that the words name.
    pub fn saw(&mut self, what: &'static str, form: &[u8]) {
        self.forms.entry(what).or_default().insert(form.to_vec());
    }

    /// A line for each of the words.
    pub fn print(&self) {
        let names: BTreeSet<_> = self.numbers.keys().map(|(what, _)| *what).collect();
        for name in names {
            let of_name = self.numbers.range((name, 0)..=(name, u64::MAX));
            let each: Vec<_> = of_name.map(|((_, number), n)| format!("{number}: {n}")).collect();
            println!("  {name}: {}", each.join(", "));
        }
        for (what, forms) in &self.forms {
            println!("  {what}: {} different", forms.len());
        }
    }
}
