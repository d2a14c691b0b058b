//! Sheets with lists of the rows filled beforehand: what they are refused for, and where another list changes nothing.

use crate::chance::Chance;
use crate::compare::{need, number, room, Compared, Translation};
use crate::model::{filled_by, Filled, EVERY_MARK, EVERY_ROW};
use crate::step::{steps_of, Step};

/// The sorts of lists, as `Chance::list` numbers them.
const SORTS: &str =
    "lists (0 every row, 1 every mark, 2 none, 3 the rows needed, 4 one less, 5 those and marks 14, 15, \
     6 such marks alone, 7 any, 8 every mark but that of a row needed, 9 the rows needed and any)";

/// A sheet that is translated into so many halfwords with one list after another.
struct Listed<'a> {
    sheet: &'a [u8],
    room: usize,
    /// The chances of what the halfwords are before.
    before: Chance,
}

impl Compared {
    /// A sheet with a list, by both calls. Its chances are its own and change no other case.
    pub fn listed(&mut self, sheet: &[u8], needed: u16) {
        let mut chance = Chance(self.sheets << 32 | 1);
        let (sort, filled) = chance.list(needed);
        self.counts.add(SORTS, sort as u64);
        let answer = self.translated_with(&mut chance, sheet, filled);
        self.counts.add("translation answers with a list", answer);
        if answer == 16 {
            self.counts.add("lists with 16, by their sort", sort as u64);
        }
        let answer = self.evaluated(&mut chance, sheet, filled);
        self.counts.add("evaluation answers with a list", answer.into());
    }

    /// A sheet translated with a list, and with others that must give the same; the number due.
    fn translated_with(&mut self, chance: &mut Chance, sheet: &[u8], filled: u16) -> u64 {
        let need = need(chance, sheet);
        let listed = Listed { sheet, room: room(chance, need), before: Chance(self.sheets << 32 | 2) };
        let first = self.with_list(&listed, filled);
        self.same(&listed, &first, filled ^ chance.one(&[0x4000, 0x8000, 0xc000]));
        match first.due {
            Ok(_) => {
                let larger = filled | chance.word() as u16;
                self.same(&listed, &first, larger);
                self.passed(&steps_of(sheet), filled, larger);
            }
            Err((16, index)) => {
                let every_row = self.with_list(&listed, EVERY_ROW);
                self.same(&listed, &every_row, EVERY_MARK);
                self.counts.add("sheets with 16, their answers once every row is filled", number(&every_row.due));
                self.unfilled(&steps_of(sheet), filled, index as usize);
                self.both_faults(&steps_of(sheet), filled);
            }
            Err((13, _)) => self.both_faults(&steps_of(sheet), filled),
            Err(_) => {}
        }
        number(&first.due)
    }

    fn with_list(&mut self, listed: &Listed, filled: u16) -> Translation {
        self.translation(&mut listed.before.clone(), listed.sheet, filled, listed.room)
    }

    /// Another list with which ours has to answer the same and leave the same output.
    fn same(&mut self, listed: &Listed, first: &Translation, filled: u16) {
        let again = self.with_list(listed, filled);
        let case = || format!("the same of {:x?} with {filled:04x} into {}", listed.sheet, listed.room);
        self.report.expect((again.ours, &again.out), (first.ours, &first.out), case);
    }

    /// A translated sheet, counted: how much larger the other list is, and rows that the step before has filled.
    fn passed(&mut self, steps: &[Step], filled: u16, larger: u16) {
        let more = (larger & !filled & EVERY_ROW).count_ones();
        self.counts.add("translated sheets, rows more in the larger list", more.into());
        for (index, two) in steps.windows(2).enumerate() {
            let newly = two[1].missing(&filled_before(steps, filled, index)).next().is_some();
            self.counts.add("steps after a step (1 reads the row that was filled by it)", newly.into());
        }
    }

    /// The step that reads a row which nobody filled, counted.
    fn unfilled(&mut self, steps: &[Step], filled: u16, index: usize) {
        let step = &steps[index];
        let missing: Vec<_> = step.missing(&filled_before(steps, filled, index)).collect();
        let letters = missing.iter().map(|(letter, _)| 1 << (*letter as u64 - 'a' as u64)).sum();
        self.counts.add("16 for the row (1 of a, 2 of b, 4 of c, and their sums)", letters);
        let own = missing.iter().any(|(_, row)| *row == step.target);
        self.counts.add("16 for the target's row (0 no, 1 yes)", own.into());
        let place = if index == 0 { 0 } else { 1 + u64::from(index + 1 == steps.len()) };
        self.counts.add("16 at a step (0 the first, 1 inside, 2 the last)", place);
        if let [(letter, row)] = missing[..] {
            self.counts.saw("kinds, letters and rows with 16 for that alone", &[step.kind, letter as u8, row]);
        }
    }

    /// A sheet with a step that breaks a rule and one that reads a row which nobody filled, counted.
    fn both_faults(&mut self, steps: &[Step], filled: u16) {
        let reads = |index: &usize| steps[*index].missing(&filled_before(steps, filled, *index)).next().is_some();
        let broken = steps.iter().position(|step| !step.keeps());
        let unfilled = (0..steps.len()).find(reads);
        if let (Some(broken), Some(unfilled)) = (broken, unfilled) {
            let order = u64::from(unfilled <= broken) + u64::from(unfilled < broken);
            self.counts.add("sheets with 13 and 16 (0 13 first, 1 both at one step, 2 16 first)", order);
        }
    }
}

/// The rows that are filled before the step of that index.
fn filled_before(steps: &[Step], filled: u16, index: usize) -> Filled {
    let mut rows = filled_by(filled);
    steps[..index].iter().for_each(|step| step.fill(&mut rows));
    rows
}
