//! Records as the C boundary has them: mnemonic, mark, address, count, then kind and value of
//! each of three places.

use crate::Names;
use original::isa::{FpReg, Insn, Operand, Operands, Reg, Width, MAX_OPERANDS};

pub type Record = [u64; 10];

pub const ABSENT: u64 = 0;
pub const D: u64 = 1;
pub const Q: u64 = 2;
pub const S: u64 = 3;
pub const WHOLE: u64 = 4;
pub const FLOAT: u64 = 5;
pub const OTHER: u64 = 6;

/// The word at which place i has its kind; the value is the next.
pub fn place(i: usize) -> usize {
    4 + 2 * i
}

/// The record of what the original read.
pub fn of_insn(insn: &Insn, names: &Names) -> Record {
    let mut record = [0; 10];
    record[0] = names.number(insn.mnemonic);
    record[1] = match insn.encoding {
        "T1" => 1,
        "T2" => 2,
        other => panic!("the original answered the mark {other}"),
    };
    record[2] = insn.addr.into();
    record[3] = insn.operands.len() as u64;
    for (i, operand) in insn.operands.as_slice().enumerate() {
        let (kind, value) = of_operand(operand);
        record[place(i)] = kind;
        record[place(i) + 1] = value;
    }
    record
}

fn of_operand(operand: Operand) -> (u64, u64) {
    match operand {
        Operand::FpReg(FpReg::D(n)) => (D, n.into()),
        Operand::FpReg(FpReg::Q(n)) => (Q, n.into()),
        Operand::FpReg(FpReg::S(n)) => (S, n.into()),
        Operand::Imm(v) => (WHOLE, v as u64),
        Operand::FpImm(v) => (FLOAT, v.to_bits()),
        _ => (OTHER, 0),
    }
}

/// The original's form of a record, or none where it has no such value: an unknown mnemonic, a
/// count above 3, a word too large for its field. Places past the count are left out.
pub fn to_insn(record: &Record, names: &Names) -> Option<Insn> {
    let mnemonic = names.name(record[0])?;
    let len = u8::try_from(record[3]).ok().filter(|&n| n <= 3)?;
    let mut items = [None; MAX_OPERANDS];
    for (i, item) in items.iter_mut().enumerate().take(len.into()) {
        *item = to_operand(record[place(i)], record[place(i) + 1])?;
    }
    Some(Insn {
        mnemonic,
        encoding: if record[1] == 2 { "T2" } else { "T1" },
        addr: record[2] as u32,
        width: Width::Wide,
        cond: None,
        sets_flags: false,
        explicit_width: false,
        operands: Operands { items, len },
    })
}

/// The outer answer is none where the original has no such place, the inner where it is absent.
/// Another kind is one of several, by its value, so that the comparison meets each.
fn to_operand(kind: u64, value: u64) -> Option<Option<Operand>> {
    let number = u8::try_from(value).ok();
    Some(match kind {
        ABSENT => None,
        D => Some(Operand::FpReg(FpReg::D(number?))),
        Q => Some(Operand::FpReg(FpReg::Q(number?))),
        S => Some(Operand::FpReg(FpReg::S(number?))),
        WHOLE => Some(Operand::Imm(value as i64)),
        FLOAT => Some(Operand::FpImm(f64::from_bits(value))),
        OTHER => Some(match value % 5 {
            0 => Operand::Reg(Reg(1)),
            1 => Operand::FpScalar(FpReg::D(1), 0),
            2 => Operand::RegList(1),
            3 => Operand::Target(1),
            _ => Operand::Text("d1"),
        }),
        _ => return None,
    })
}
