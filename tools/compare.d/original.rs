//! The crate root of the original's test copy: just enough for its three files to find each other.
#![allow(dead_code)]

pub mod cond;
pub use cond::Cond;

pub mod isa {
    pub mod insn;
    pub mod t32_simd;
    pub use insn::*;
}
