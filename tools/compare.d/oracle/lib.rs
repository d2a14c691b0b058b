//! The original's answers in the port's words, shared by every part of the comparison.

pub mod carried;
pub mod chosen;
pub mod clock;
pub mod damage;
pub mod editions;
pub mod family;
pub mod names;
pub mod reading;
pub mod record;
pub mod report;
pub mod samples;
pub mod values;
pub mod writing;

pub use editions::Edition;
pub use family::{decode, encode, family, Family};
pub use names::Names;
pub use original::isa;
pub use record::Record;
pub use report::Report;
