//! Which family has a pair, and the original's functions behind that routing.

use original::isa::t32_simd as simd;
use original::isa::Insn;

#[derive(Clone, Copy, Debug, PartialEq, Eq)]
pub enum Family {
    Same,
    Different,
    Shift,
    Modimm,
}

/// Document 01, 'Four families': the routing by fixed bits.
pub fn family(hw1: u16, hw2: u16) -> Option<Family> {
    match hw1 & 0xef80 {
        0xef00 => Some(Family::Same),
        0xef80 if hw2 & 0x10 != 0 => {
            if hw1 & 0x38 == 0 && hw2 & 0x80 == 0 {
                Some(Family::Modimm)
            } else {
                Some(Family::Shift)
            }
        }
        0xef80 if hw2 & 0x40 == 0 && hw1 & 0x30 != 0x30 => Some(Family::Different),
        _ => None,
    }
}

/// The original's reading of a pair: only the function of the pair's own family is asked.
pub fn decode(hw1: u16, hw2: u16, address: u32) -> Option<Insn> {
    match family(hw1, hw2)? {
        Family::Same => simd::decode_same3(hw1, hw2, address),
        Family::Different => simd::decode_diff(hw1, hw2, address),
        Family::Shift => simd::decode_shift(hw1, hw2, address),
        Family::Modimm => simd::decode_modimm(hw1, hw2, address),
    }
}

/// The original's writing, its functions in its own order without the families left out.
pub fn encode(insn: &Insn) -> Option<(u16, u16)> {
    simd::encode_same3(insn)
        .or_else(|| simd::encode_shift(insn))
        .or_else(|| simd::encode_modimm(insn))
        .or_else(|| simd::encode_diff(insn))
}
