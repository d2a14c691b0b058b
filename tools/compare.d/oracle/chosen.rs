//! The fixed sample of pairs behind the replay lists. A pair is made from its fields, as the
//! manual's diagrams have them; what it reads as is not looked at.

use crate::samples::mixed;
use std::collections::BTreeSet;

type Pair = (u16, u16);
/// D:Vd, N:Vn, M:Vm.
type Registers = [u16; 3];

fn d_bits(d: u16) -> Pair {
    ((d >> 4) << 6, (d & 15) << 12)
}
fn n_bits(n: u16) -> Pair {
    (n & 15, (n >> 4) << 7)
}
fn m_bits(m: u16) -> Pair {
    (0, (m >> 4) << 5 | m & 15)
}

fn joined(parts: &[Pair]) -> Pair {
    parts.iter().fold((0, 0), |(a, b), (c, d)| (a | c, b | d))
}

/// Three-same: row is U:opc:B.
fn same(row: u16, size: u16, q: u16, [d, n, m]: Registers) -> Pair {
    let fixed =
        (0xef00 | (row >> 5) << 12 | size << 4, (row >> 1 & 15) << 8 | q << 6 | (row & 1) << 4);
    joined(&[fixed, d_bits(d), n_bits(n), m_bits(m)])
}

/// Three-different: row is U:A.
fn different(row: u16, size: u16, [d, n, m]: Registers) -> Pair {
    let fixed = (0xef80 | (row >> 4) << 12 | size << 4, (row & 15) << 8);
    joined(&[fixed, d_bits(d), n_bits(n), m_bits(m)])
}

/// Shift: row is U:A:B.
fn shift(row: u16, l: u16, imm6: u16, [d, _, m]: Registers) -> Pair {
    let fixed =
        (0xef80 | (row >> 5) << 12 | imm6, (row >> 1 & 15) << 8 | l << 7 | (row & 1) << 6 | 0x10);
    joined(&[fixed, d_bits(d), m_bits(m)])
}

/// Modified-immediate: cell is op:cmode.
fn modimm(cell: u16, imm8: u16, q: u16, [d, _, _]: Registers) -> Pair {
    let hw1 = 0xef80 | (imm8 >> 7) << 12 | imm8 >> 4 & 7;
    let hw2 = (cell & 15) << 8 | q << 6 | (cell >> 4) << 5 | 0x10 | imm8 & 15;
    joined(&[(hw1, hw2), d_bits(d)])
}

/// L and imm6 at both ends of each element size.
const AMOUNTS: [(u16, u16); 8] =
    [(0, 8), (0, 15), (0, 16), (0, 31), (0, 32), (0, 63), (1, 0), (1, 63)];
/// Bytes at both ends, with one bit, and with several.
const BYTES: [u16; 5] = [0, 1, 0x5a, 0x80, 0xff];
/// Register numbers at both ends, and with each bit set alone.
const NUMBERS: [u16; 10] = [0, 1, 2, 4, 8, 15, 16, 17, 30, 31];
/// One row or cell of each form: vadd.i and vshl.s; vaddl, vaddw, vaddhn; vshr D and Q, vshrn,
/// vshll, vcvt D; vmov.i32. The register numbers are tried in these.
const SAME_ROWS: [u16; 2] = [16, 8];
const DIFFERENT_ROWS: [u16; 3] = [0, 1, 4];
const SHIFT_ROWS: [u16; 5] = [0, 1, 16, 20, 28];
/// vfma and vfms: U 0, opc 12, B 1.
const FUSED_ROW: u16 = 25;
/// vorr, whose equal sources make it vmov.
const VORR: (u16, u16) = (3, 2);
/// op 0, cmode 15 is vmov.f32; op 1, cmode 14 is vmov.i64.
const PER_BYTE: [u16; 2] = [15, 16 + 14];

/// Every pair of the sample.
pub fn pairs() -> BTreeSet<Pair> {
    let mut sample = BTreeSet::new();
    cells(&mut sample);
    registers(&mut sample);
    aliases(&mut sample);
    bytes(&mut sample);
    outside(&mut sample);
    sample.extend(DOCUMENT);
    sample
}

/// Even registers that differ from pair to pair.
fn some_even(seed: u16) -> Registers {
    let chance = mixed(seed.into());
    [0, 8, 16].map(|low| (chance >> low) as u16 % 16 * 2)
}

/// The registers with one of them odd.
fn odd_at(i: usize, mut registers: Registers) -> Registers {
    registers[i] += 1;
    registers
}

/// The registers as they are, and each of the three odd alone.
fn parities(registers: Registers) -> [Registers; 4] {
    [registers, odd_at(0, registers), odd_at(1, registers), odd_at(2, registers)]
}

/// Every cell of every table with even registers, both ends of each amount, several bytes; and
/// each row once with each register odd. D and Q where the pair has the bit.
fn cells(sample: &mut BTreeSet<Pair>) {
    for row in 0..64 {
        for (size, q) in [(0, 0), (0, 1), (1, 0), (1, 1), (2, 0), (2, 1), (3, 0), (3, 1)] {
            let registers = some_even(row * 8 + size * 2 + q);
            sample.insert(same(row, size, q, registers));
            // The rows of opc 11 may be blank at 8 bits.
            if size == u16::from(row >> 1 & 15 == 11) {
                sample.extend(parities(registers).map(|registers| same(row, size, q, registers)));
            }
        }
        for (l, imm6) in AMOUNTS {
            let registers = some_even(row * 64 + imm6);
            sample.insert(shift(row, l, imm6, registers));
            if (l, imm6) == (0, 32) {
                sample.extend(parities(registers).map(|registers| shift(row, l, imm6, registers)));
            }
        }
    }
    for row in 0..32 {
        for size in 0..4 {
            let registers = some_even(row * 4 + size);
            sample.insert(different(row, size, registers));
            if size == 1 {
                sample.extend(parities(registers).map(|registers| different(row, size, registers)));
            }
        }
        for (imm8, q) in BYTES.into_iter().flat_map(|byte| [(byte, 0), (byte, 1)]) {
            let registers = some_even(row * 256 + imm8);
            sample.insert(modimm(row, imm8, q, registers));
            if imm8 == BYTES[1] {
                sample.insert(modimm(row, imm8, q, odd_at(0, registers)));
            }
        }
    }
}

/// Each of the register numbers in every field of every form.
fn registers(sample: &mut BTreeSet<Pair>) {
    for number in NUMBERS {
        for i in 0..3 {
            let mut registers = [4, 10, 22];
            registers[i] = number;
            for q in [0, 1] {
                sample.extend(SAME_ROWS.map(|row| same(row, 2, q, registers)));
                sample.insert(modimm(0, 0x37, q, registers));
            }
            sample.extend(DIFFERENT_ROWS.map(|row| different(row, 1, registers)));
            sample.extend(SHIFT_ROWS.map(|row| shift(row, 0, 33, registers)));
        }
    }
}

/// vorr with equal sources, and with sources that differ in their highest or lowest bit alone.
fn aliases(sample: &mut BTreeSet<Pair>) {
    for number in 0..32 {
        for (q, other) in
            [0, 16, 1].into_iter().flat_map(|flip| [(0, number ^ flip), (1, number ^ flip)])
        {
            sample.insert(same(VORR.0, VORR.1, q, [6, number, other]));
        }
    }
}

/// Every float, and every 64-bit pattern of a single byte or of all but one.
fn bytes(sample: &mut BTreeSet<Pair>) {
    for byte in 0..256u16 {
        sample.insert(modimm(PER_BYTE[0], byte, byte & 1, [2, 0, 0]));
        if matches!(byte.count_ones(), 0 | 1 | 7 | 8) {
            sample.insert(modimm(PER_BYTE[1], byte, byte & 1, [30, 0, 0]));
        }
    }
}

/// vfma and vfms, D and Q, with each of the register numbers in every field, and with one bit
/// changed.
pub fn fused() -> BTreeSet<Pair> {
    let mut sample = BTreeSet::new();
    for (size, q) in [(0, 0), (0, 1), (2, 0), (2, 1)] {
        for number in NUMBERS {
            sample.insert(same(FUSED_ROW, size, q, [number, 10, 22]));
            sample.insert(same(FUSED_ROW, size, q, [4, number, 22]));
            sample.insert(same(FUSED_ROW, size, q, [4, 10, number]));
        }
        let (hw1, hw2) = same(FUSED_ROW, size, q, [4, 10, 22]);
        sample.extend((0..16).flat_map(|bit| [(hw1 ^ 1 << bit, hw2), (hw1, hw2 ^ 1 << bit)]));
    }
    sample
}

/// Pairs just outside a family: each fixed bit of hw1 changed alone, and each of the bits that
/// route within the second space.
fn outside(sample: &mut BTreeSet<Pair>) {
    for (hw1, hw2) in [(0xef22, 0x0844), (0xef80, 0x0000), (0xef88, 0x0a11), (0xffa0, 0x0e10)] {
        sample.extend((0..16).map(|bit| (hw1 ^ 1 << bit, hw2)));
        sample.extend([0x10, 0x40, 0x80].map(|bit| (hw1, hw2 ^ bit)));
        sample.extend([(hw1 | 0x30, hw2 & !0x10), (0, 0), (0xffff, 0xffff), (hw2, hw1)]);
    }
}

/// Document 01, 'Pairs to check'.
const DOCUMENT: [Pair; 17] = [
    (0xef22, 0x0844),
    (0xef21, 0x0111),
    (0xef01, 0x0402),
    (0xef88, 0x0a11),
    (0xff80, 0x0090),
    (0xefc0, 0xee3f),
    (0xff80, 0x0e30),
    (0xef87, 0x0f10),
    (0xefa0, 0x0e10),
    (0xef90, 0x0e10),
    (0xef00, 0x0b10),
    (0xef00, 0x0b50),
    (0xef80, 0x0000),
    (0xef80, 0x1000),
    (0xef80, 0x0f30),
    (0xef80, 0x0210),
    (0xefb0, 0x0000),
];
