//! Disagreements: counted, and the first ten told.

use std::fmt::Debug;
use std::process::ExitCode;

#[derive(Default)]
pub struct Report {
    pub disagreements: u64,
}

impl Report {
    /// Counts a disagreement where the two are not equal.
    pub fn expect<T: PartialEq + Debug>(&mut self, ours: T, due: T, what: impl FnOnce() -> String) {
        if ours != due {
            self.disagreements += 1;
            if self.disagreements <= 10 {
                println!("  {}: ours {ours:x?}, due {due:x?}", what());
            }
        }
    }

    pub fn status(&self) -> ExitCode {
        ExitCode::from(u8::from(self.disagreements != 0))
    }
}
