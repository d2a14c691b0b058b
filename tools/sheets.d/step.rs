//! The 24 bytes of a step, which the two parts of the model share.

pub const STEP: usize = 24;

#[derive(Clone, Copy, Debug, Default)]
pub struct Step {
    pub kind: u8,
    pub target: u8,
    pub a: u8,
    pub b: u8,
    pub c: u8,
    pub width: u8,
    pub amount: u8,
    pub sign: u8,
    pub low: u64,
    pub high: u64,
}

impl Step {
    /// The step of 24 bytes.
    pub fn of(bytes: &[u8]) -> Step {
        let word = |at: usize| u64::from_le_bytes(bytes[at..at + 8].try_into().expect("8 bytes"));
        Step {
            kind: bytes[0],
            target: bytes[1],
            a: bytes[2],
            b: bytes[3],
            c: bytes[4],
            width: bytes[5],
            amount: bytes[6],
            sign: bytes[7],
            low: word(8),
            high: word(16),
        }
    }

    pub fn bytes(&self) -> [u8; STEP] {
        let mut bytes = [0; STEP];
        let Step { kind, target, a, b, c, width, amount, sign, low, high } = *self;
        bytes[..8].copy_from_slice(&[kind, target, a, b, c, width, amount, sign]);
        bytes[8..16].copy_from_slice(&low.to_le_bytes());
        bytes[16..].copy_from_slice(&high.to_le_bytes());
        bytes
    }

    /// The lane width in bits.
    pub fn bits(&self) -> u8 {
        8 << self.width
    }
}

/// The steps of a sheet whose length is right.
pub fn steps_of(sheet: &[u8]) -> Vec<Step> {
    sheet.chunks(STEP).map(Step::of).collect()
}
