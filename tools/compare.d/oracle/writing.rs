//! The number with which writing refuses a record: 7, 8, 5, 9 in document 01's order. It is worked
//! out from each mnemonic's form, and shares nothing with the original but its tables of names.

use crate::record::{place, D, FLOAT, Q, WHOLE};
use crate::{Names, Record};
use original::isa::t32_simd::{
    DiffShape, ShiftClass, DIFF_ROWS, MODIMM_NAMES, SAME3, SHIFT_ROWS, VMOVL_NAMES,
};

/// What a mnemonic takes: its operands, and what else it asks of them.
enum Form {
    /// Registers, each D or Q.
    Registers(Vec<bool>),
    /// So many registers, all D or all Q; a pairwise name takes no Q.
    Alike { count: usize, pairwise: bool },
    /// Two registers, as the class has them, and an amount in the range.
    Amount { class: ShiftClass, low: i64, high: i64 },
    /// One register and an immediate of this mnemonic.
    Immediate(&'static str),
}

/// The forms of every mnemonic, by its number; only vqshl has two.
pub struct Forms(Vec<Vec<Form>>);

impl Forms {
    pub fn new(names: &Names) -> Forms {
        Forms(names.list.iter().map(|&name| forms_of(name)).collect())
    }

    /// The least and the greatest amount of a mnemonic that takes one.
    pub fn amounts(&self, number: u64) -> Option<(i64, i64)> {
        self.0[number as usize].iter().find_map(|form| match *form {
            Form::Amount { low, high, .. } => Some((low, high)),
            _ => None,
        })
    }

    /// The refusal's number, or 0 for a record that is written.
    pub fn refusal(&self, record: &Record) -> u32 {
        let Some(forms) = usize::try_from(record[0]).ok().and_then(|n| self.0.get(n)) else {
            return 7;
        };
        // A name of two families: a whole number in the third place chooses the shift.
        let by_number = record[3] == 3 && record[place(2)] == WHOLE;
        let is_amount = |form: &&Form| matches!(form, Form::Amount { .. });
        match forms.iter().find(is_amount).filter(|_| by_number) {
            Some(form) => form.refusal(record),
            None => forms[0].refusal(record),
        }
    }
}

fn forms_of(name: &'static str) -> Vec<Form> {
    let mut forms = Vec::new();
    if SAME3.as_flattened().contains(&name) {
        forms.push(Form::Alike { count: 3, pairwise: name.starts_with("vp") });
    }
    if let Some((class, size)) = SHIFT_ROWS
        .iter()
        .find_map(|row| Some((row.class, row.names.iter().position(|&n| n == name)?)))
    {
        let w = 8 << size;
        let (low, high) = match class {
            ShiftClass::Right | ShiftClass::Narrow => (1, w),
            ShiftClass::Left | ShiftClass::Long => (0, w - 1),
            ShiftClass::Cvt => (1, 32),
        };
        forms.push(Form::Amount { class, low, high });
    }
    if VMOVL_NAMES.as_flattened().contains(&name) {
        forms.push(Form::Registers(vec![true, false]));
    }
    if MODIMM_NAMES.as_flattened().contains(&name) {
        forms.push(Form::Immediate(name));
    }
    if let Some(row) = DIFF_ROWS.iter().find(|row| row.names.contains(&name)) {
        forms.push(Form::Registers(match row.shape {
            DiffShape::Long => vec![true, false, false],
            DiffShape::Wide => vec![true, true, false],
            DiffShape::Narrow => vec![false, true, true],
        }));
    }
    if name == "vmov" {
        forms.push(Form::Alike { count: 2, pairwise: false });
    }
    forms
}

impl Form {
    fn refusal(&self, record: &Record) -> u32 {
        let vector = |i| vector(record[place(i)], record[place(i) + 1]);
        let counts = |n: usize| record[3] == n as u64;
        match self {
            Form::Registers(quads) => {
                let fits = quads.iter().enumerate().all(|(i, &quad)| vector(i) == Some(quad));
                if counts(quads.len()) && fits {
                    0
                } else {
                    8
                }
            }
            Form::Alike { count, pairwise } => {
                let alike = (1..*count).all(|i| vector(i) == vector(0));
                match vector(0) {
                    Some(quad) if counts(*count) && alike => {
                        if quad && *pairwise {
                            5
                        } else {
                            0
                        }
                    }
                    _ => 8,
                }
            }
            Form::Amount { class, low, high } => {
                let (Some(qd), Some(qm)) = (vector(0), vector(1)) else { return 8 };
                let fits = match class {
                    ShiftClass::Narrow => !qd && qm,
                    ShiftClass::Long => qd && !qm,
                    _ => qd == qm,
                };
                if !counts(3) || !fits || record[place(2)] != WHOLE {
                    return 8;
                }
                nine_unless((*low..=*high).contains(&(record[place(2) + 1] as i64)))
            }
            Form::Immediate(name) => {
                let kind = if name.ends_with(".f32") { FLOAT } else { WHOLE };
                if !counts(2) || vector(0).is_none() || record[place(1)] != kind {
                    return 8;
                }
                nine_unless(carried(name, record[place(1) + 1]))
            }
        }
    }
}

fn nine_unless(fits: bool) -> u32 {
    if fits {
        0
    } else {
        9
    }
}

/// Whether a place is a D or Q register that exists, and then whether it is a Q.
fn vector(kind: u64, value: u64) -> Option<bool> {
    match kind {
        D if value < 32 => Some(false),
        Q if value < 16 => Some(true),
        _ => None,
    }
}

/// Whether some modified-immediate pair of this name has the value, as the manual's table A7-15
/// has its constants.
fn carried(name: &str, value: u64) -> bool {
    let (operation, dt) = name.split_once('.').expect("a data type");
    let byte_at = |low: u32| value & !(0xff << low) == 0;
    match dt {
        "i8" => byte_at(0),
        "i16" => byte_at(0) || byte_at(8),
        "i32" => {
            let ones = matches!(operation, "vmov" | "vmvn");
            [0, 8, 16, 24].into_iter().any(byte_at)
                || ones && value & 0xff == 0xff && value < 1 << 16
                || ones && value & 0xffff == 0xffff && value < 1 << 24
        }
        "i64" => value.to_le_bytes().iter().all(|&byte| byte == 0 || byte == 0xff),
        "f32" => {
            let k = f64::from_bits(value).abs() * 128.0;
            (0..8).any(|e| (16..32).any(|m| k == f64::from(m << e)))
        }
        other => panic!("no data type {other}"),
    }
}
