//! What the pairs carry that the original reads: mnemonics with their operands, looked up by a
//! record. The two spellings count as their readings.

use crate::damage::with_place;
use crate::record::{self, place, ABSENT, FLOAT, OTHER, WHOLE};
use crate::samples::pairs;
use crate::{decode, Edition, Names, Record};

/// A mnemonic and operands without their value: 9 bits, 2 for the count, 3 and 8 a place.
type Shape = u64;

pub struct Carried<'a> {
    names: &'a Names,
    /// Each shape with the value it has, 0 where it has none; and the shapes. Both sorted.
    with_value: Vec<(Shape, u64)>,
    shapes: Vec<Shape>,
}

impl<'a> Carried<'a> {
    pub fn of_original(names: &'a Names) -> Carried<'a> {
        let mut with_value: Vec<_> = pairs()
            .filter_map(|(hw1, hw2)| decode(hw1, hw2, 0))
            .map(|insn| split(&record::of_insn(&insn, names)).expect("what is read has a shape"))
            .collect();
        with_value.sort_unstable();
        let mut shapes: Vec<_> = with_value.iter().map(|&(shape, _)| shape).collect();
        shapes.dedup();
        Carried { names, with_value, shapes }
    }

    pub fn len(&self) -> usize {
        self.with_value.len()
    }

    /// Whether there is a pair that is read, in the edition, as the record.
    pub fn has(&self, edition: Edition, record: &Record) -> bool {
        let read_as = self.canonical(record);
        !edition.withholds_record(record, self.names)
            && split(&read_as).is_some_and(|key| self.with_value.binary_search(&key).is_ok())
    }

    /// Whether there is one for the record with some value of the same kind in its value's place;
    /// vshll has other amounts wherever it has 0.
    pub fn has_with_another(&self, edition: Edition, record: &Record) -> bool {
        let within = record[3].min(3) as usize;
        (0..within).any(|i| is_value(record[place(i)]))
            && !edition.withholds_record(record, self.names)
            && split(record).is_some_and(|(shape, _)| self.shapes.binary_search(&shape).is_ok())
    }

    /// vorr with equal sources as vmov, and vshll by 0 as vmovl.
    fn canonical(&self, record: &Record) -> Record {
        let name = self.names.name(record[0]).unwrap_or_default();
        let [second, third] = [1, 2].map(|i| (record[place(i)], record[place(i) + 1]));
        let move_name = match name.strip_prefix("vshll") {
            Some(size) if third == (WHOLE, 0) => format!("vmovl{size}"),
            None if name == "vorr" && second == third && !is_value(second.0) => "vmov".to_string(),
            _ => return *record,
        };
        if record[3] != 3 {
            return *record;
        }
        let mut moved = with_place(record, 2, (ABSENT, 0));
        moved[0] = self.names.number(&move_name);
        moved[3] = 2;
        moved
    }
}

fn is_value(kind: u64) -> bool {
    matches!(kind, WHOLE | FLOAT)
}

/// A record's shape, and its value. None where it has two values, or a word that no reading has:
/// places past the count are passed over.
fn split(record: &Record) -> Option<(Shape, u64)> {
    if record[0] >= 512 || record[3] > 3 {
        return None;
    }
    let (mut shape, mut value, mut values) = (record[0] << 2 | record[3], 0, 0);
    for i in 0..record[3] as usize {
        let (kind, word) = (record[place(i)], record[place(i) + 1]);
        let register = if is_value(kind) { 0 } else { word };
        if kind > OTHER || register > 255 {
            return None;
        }
        if is_value(kind) {
            value = word;
            values += 1;
        }
        shape = shape << 11 | kind << 8 | register;
    }
    (values < 2).then_some((shape, value))
}
