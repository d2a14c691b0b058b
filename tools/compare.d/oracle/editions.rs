//! What an edition of the manual withholds, worked out a second time: B has no VFMA and VFMS.

use crate::{Names, Record};

#[derive(Clone, Copy, PartialEq, Eq, Debug)]
pub enum Edition {
    B,
    C,
}

impl Edition {
    /// Whether a pair is theirs and the edition has them not, by the bits that their encoding
    /// fixes: hw1 1 1 1 0 1 1 1 1 0 D op 0 Vn, hw2 Vd 1 1 0 0 N Q M 1 Vm.
    pub fn withholds_pair(self, hw1: u16, hw2: u16) -> bool {
        self == Edition::B && hw1 & 0xff90 == 0xef00 && hw2 & 0x0f10 == 0x0c10
    }

    pub fn withholds_name(self, name: &str) -> bool {
        self == Edition::B && (name.starts_with("vfma") || name.starts_with("vfms"))
    }

    pub fn withholds_record(self, record: &Record, names: &Names) -> bool {
        names.name(record[0]).is_some_and(|name| self.withholds_name(name))
    }
}
