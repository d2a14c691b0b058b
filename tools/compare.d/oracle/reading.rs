//! The number with which reading refuses a pair. The original says only that it refuses, so the
//! number is worked out here from document 01's order 1 to 6, over the original's tables.

use crate::{family, Family};
use original::isa::t32_simd::{DiffShape, ShiftClass, DIFF_ROWS, MODIMM_NAMES, SAME3, SHIFT_ROWS};

/// The refusal's number, or 0 for a pair that is read.
pub fn refusal(hw1: u16, hw2: u16) -> u32 {
    match family(hw1, hw2) {
        None => 1,
        Some(Family::Same) => same(hw1, hw2),
        Some(Family::Different) => different(hw1, hw2),
        Some(Family::Shift) => shift(hw1, hw2),
        Some(Family::Modimm) => modimm(hw1, hw2),
    }
}

/// Bits high down to low of a halfword, as the manual writes them.
fn bits(hw: u16, high: u32, low: u32) -> usize {
    usize::from(hw) >> low & ((1 << (high - low + 1)) - 1)
}

/// Whether the register field is odd. Its lowest bit is the lowest of Vd, Vn or Vm.
fn odd_vd(hw2: u16) -> bool {
    bits(hw2, 12, 12) == 1
}
fn odd_vn(hw1: u16) -> bool {
    bits(hw1, 0, 0) == 1
}
fn odd_vm(hw2: u16) -> bool {
    bits(hw2, 0, 0) == 1
}

fn quad(hw2: u16) -> bool {
    bits(hw2, 6, 6) == 1
}

/// 6 where a quad register is odd.
fn six_if(odd: bool) -> u32 {
    if odd {
        6
    } else {
        0
    }
}

fn same(hw1: u16, hw2: u16) -> u32 {
    let row = bits(hw1, 12, 12) << 5 | bits(hw2, 11, 8) << 1 | bits(hw2, 4, 4);
    let name = SAME3[row][bits(hw1, 5, 4)];
    if name.is_empty() {
        return 3;
    }
    if name.starts_with("vp") && quad(hw2) {
        return 5;
    }
    six_if(quad(hw2) && (odd_vd(hw2) || odd_vn(hw1) || odd_vm(hw2)))
}

fn different(hw1: u16, hw2: u16) -> u32 {
    let row = &DIFF_ROWS[bits(hw1, 12, 12) << 4 | bits(hw2, 11, 8)];
    if row.names[bits(hw1, 5, 4)].is_empty() {
        return 3;
    }
    six_if(match row.shape {
        DiffShape::Long => odd_vd(hw2),
        DiffShape::Wide => odd_vd(hw2) || odd_vn(hw1),
        DiffShape::Narrow => odd_vn(hw1) || odd_vm(hw2),
    })
}

fn shift(hw1: u16, hw2: u16) -> u32 {
    let row = &SHIFT_ROWS[bits(hw1, 12, 12) << 5 | bits(hw2, 11, 8) << 1 | bits(hw2, 6, 6)];
    let (l, imm6) = (bits(hw2, 7, 7), bits(hw1, 5, 0));
    let fixed_l = matches!(row.class, ShiftClass::Narrow | ShiftClass::Long | ShiftClass::Cvt);
    if fixed_l && l == 1 || row.class == ShiftClass::Cvt && imm6 < 32 {
        return 2;
    }
    let size = match (l, imm6) {
        _ if row.class == ShiftClass::Cvt => 0,
        (1, _) => 3,
        (_, 32..) => 2,
        (_, 16..) => 1,
        _ => 0,
    };
    if row.names[size].is_empty() {
        return 3;
    }
    six_if(match row.class {
        ShiftClass::Narrow => odd_vm(hw2),
        ShiftClass::Long => odd_vd(hw2),
        _ => quad(hw2) && (odd_vd(hw2) || odd_vm(hw2)),
    })
}

fn modimm(hw1: u16, hw2: u16) -> u32 {
    let cmode = bits(hw2, 11, 8);
    if MODIMM_NAMES[bits(hw2, 5, 5)][cmode].is_empty() {
        return 3;
    }
    let imm8 = bits(hw1, 12, 12) << 7 | bits(hw1, 2, 0) << 4 | bits(hw2, 3, 0);
    if imm8 == 0 && matches!(cmode >> 1, 1 | 2 | 3 | 5 | 6) {
        return 4;
    }
    six_if(quad(hw2) && odd_vd(hw2))
}
