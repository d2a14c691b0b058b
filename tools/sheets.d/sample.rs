//! The sample that crates/sheet_test replays: the document's edges, random sheets, then lists of filled rows. Two lines
//! a case; the model gives the answers.

use crate::answers;
use crate::chance::{sheet_of, Chance};
use crate::halves::constants;
use crate::model::{needed, uses, EVERY_MARK, EVERY_ROW};
use crate::pairs::code_of;
use crate::step::{Step, STEP};
use std::process::ExitCode;

/// What every halfword of the replay's output is before the translation, and how many it has.
const BEFORE: u16 = 0x5555;
const HALFWORDS: usize = 10304;

/// Random cases after the edges, and as many with lists.
const RANDOM: usize = 40;

/// A kind, a byte of its step and a value that breaks a rule.
#[rustfmt::skip]
const WRONG: [(u8, usize, u8); 22] = [
    (2, 5, 4), (3, 5, 4), (9, 5, 4), (10, 5, 4), (4, 5, 3), (11, 5, 3), (12, 5, 3), (13, 5, 3),
    (10, 7, 2), (11, 7, 2), (12, 7, 2), (13, 7, 2), (2, 7, 1), (3, 7, 1), (9, 7, 1), (2, 6, 1), (11, 6, 1),
    (0, 0, 255), (5, 1, 255), (5, 3, 14), (7, 4, 1), (1, 3, 1),
];

/// Halves of constants: what each sort of one pair leaves, then what several sorts leave, then what none does.
#[rustfmt::skip]
const HALVES: [u64; 42] = [
    0x0000_00a5_0000_00a5, 0x0000_a500_0000_a500, 0x00a5_0000_00a5_0000, 0xa500_0000_a500_0000, // vmov.i32
    0x00a5_00a5_00a5_00a5, 0xa500_a500_a500_a500, 0x0000_a5ff_0000_a5ff, 0x00a5_ffff_00a5_ffff, // vmov.i16, vmov.i32
    0xa5a5_a5a5_a5a5_a5a5, 0x3f80_0000_3f80_0000, 0xbe98_0000_be98_0000, 0x4178_0000_4178_0000, // vmov.i8, vmov.f32
    0xffff_ff5a_ffff_ff5a, 0xffff_5aff_ffff_5aff, 0xff5a_ffff_ff5a_ffff, 0x5aff_ffff_5aff_ffff, // vmvn.i32
    0xff5a_ff5a_ff5a_ff5a, 0x5aff_5aff_5aff_5aff, 0xffff_5a00_ffff_5a00, 0xff5a_0000_ff5a_0000, // vmvn.i16, vmvn.i32
    0x00ff_ff00_00ff_ff00, 0xff00_00ff_ff00_00ff, 0x0000_0000_ffff_ffff, 0xff00_0000_0000_0000, // vmov.i64
    0, u64::MAX, 0xffff_ff00_ffff_ff00, 0x0000_ffff_0000_ffff, 0x00ff_00ff_00ff_00ff, 0x4000_0000_4000_0000,
    1, 0x0000_0001_0000_0000, 0x0101_0102_0101_0102, 0x0101_0101_0101_0102, 0x3f80_0000, 0x3f80_0000_0000_0000,
    0x3f84_0000_3f84_0000, 0x0000_a5fe_0000_a5fe, 0x00a5_00a5_00a5_00a4, 0xffff_ff5a_ffff_ff5b, 0x00ff_ff00_00ff_ff01,
    0xa501_0000_a501_0000,
];

/// Sheets of steps by kind, target, a, b and c, each with lists of filled rows.
#[rustfmt::skip]
const LISTED: [(&[[u8; 5]], &[u16]); 34] = [
    // no step; a constant alone; a sheet that reads only what it set
    (&[], &[0, 0xc000, EVERY_ROW]),
    (&[[0, 5, 0, 0, 0]], &[0, 0x0020]),
    (&[[0, 5, 0, 0, 0], [0, 0, 0, 0, 0]], &[0]),
    (&[[0, 1, 0, 0, 0], [2, 1, 1, 1, 0], [8, 2, 1, 0, 0], [14, 1, 1, 2, 2], [1, 13, 1, 0, 0]], &[0, 0xc000]),
    // two rows and three: both, each missing alone, none; marks 14 and 15 alone, and beside what is needed
    (&[[2, 2, 0, 1, 0]], &[0x0003, 0x0001, 0x0002, 0, 0x4000, 0x8000, 0xc000, 0xc003, 0x8003, 0xc002]),
    (&[[2, 2, 0, 1, 0]], &[EVERY_ROW, EVERY_MARK, 0x3ffc, 0xfffc]),
    (&[[14, 13, 10, 11, 12]], &[0x1c00, 0x1800, 0x1400, 0x0c00, 0x0400, 0x2000, 0xe000, 0xdc00]),
    // one row twice, and three times
    (&[[7, 2, 9, 9, 0]], &[0x0200, 0xfdff]),
    (&[[14, 2, 9, 9, 9]], &[0x0200, 0xfdff]),
    (&[[14, 2, 9, 8, 9]], &[0x0300, 0x0200, 0x0100]),
    // the target itself by a, by b, by c, by all; not filled and filled, also by the step before
    (&[[1, 5, 5, 0, 0]], &[0, 0x0020]),
    (&[[3, 3, 3, 4, 0]], &[0x0010, 0x0018]),
    (&[[3, 3, 4, 3, 0]], &[0x0010, 0x0018]),
    (&[[14, 6, 4, 5, 6]], &[0x0030, 0x0070]),
    (&[[14, 6, 6, 6, 6]], &[0xffbf, 0x0040]),
    (&[[0, 5, 0, 0, 0], [2, 5, 5, 5, 0]], &[0]),
    (&[[1, 6, 7, 0, 0], [2, 6, 6, 7, 0], [2, 6, 6, 6, 0]], &[0x0080, 0x0040]),
    // a row filled by the step before, by one long before, by a step after
    (&[[0, 7, 0, 0, 0], [1, 8, 7, 0, 0]], &[0, 0x0100]),
    (&[[0, 7, 0, 0, 0], [0, 6, 0, 0, 0], [0, 5, 0, 0, 0], [5, 7, 6, 7, 0], [14, 4, 5, 6, 7]], &[0]),
    (&[[1, 8, 7, 0, 0], [0, 7, 0, 0, 0]], &[0, 0x0100, 0x0080]),
    (&[[0, 7, 0, 0, 0], [2, 9, 7, 8, 0], [0, 8, 0, 0, 0]], &[0, 0x0080, 0x0100]),
    // what a kind does not use is 0, and reads no row 0; what it uses does
    (&[[0, 3, 0, 0, 0]], &[0xfffe]),
    (&[[1, 3, 4, 0, 0], [8, 3, 4, 0, 0], [9, 3, 4, 0, 0], [10, 3, 4, 0, 0]], &[0x0010, 0xfffe]),
    (&[[1, 3, 0, 0, 0]], &[0xfffe, 0x0001]),
    (&[[11, 3, 4, 0, 0]], &[0xfffe, 0x0011]),
    (&[[14, 3, 4, 5, 0]], &[0xfffe, 0x0031]),
    // 13 and 16 in one step; 13 whatever the marks above row 13 say
    (&[[2, 14, 0, 1, 0]], &[0, 0x0003]),
    (&[[15, 0, 1, 2, 3]], &[0, EVERY_MARK]),
    (&[[1, 0, 14, 0, 0]], &[0x4000, EVERY_MARK]),
    (&[[2, 0, 1, 15, 0]], &[0x8000, EVERY_MARK]),
    // 16 at step 1 before 13 at step 2, and the other way round
    (&[[0, 0, 0, 0, 0], [1, 2, 3, 0, 0], [1, 14, 0, 0, 0]], &[0, 0x0008]),
    (&[[0, 0, 0, 0, 0], [1, 14, 0, 0, 0], [1, 2, 3, 0, 0]], &[0, 0x0008]),
    // 16 at two steps: the first
    (&[[0, 0, 0, 0, 0], [1, 2, 3, 0, 0], [1, 3, 4, 0, 0]], &[0, 0x0008, 0x0010, 0x0018]),
    (&[[12, 1, 2, 3, 0], [13, 2, 3, 4, 0]], &[0x0018, 0x000c, 0x001c]),
];

/// How a case's sheet is handed in; what is left out is as much as is needed, and every row filled.
#[derive(Clone, Copy, Default)]
struct How {
    filled: Option<u16>,
    start: u64,
    file: Option<usize>,
    room: Option<usize>,
    budget: Option<u64>,
}

struct Sample {
    chance: Chance,
    /// The cases so far; by turns every row is filled and every mark set.
    cases: usize,
}

pub fn sample() -> ExitCode {
    let mut sample = Sample { chance: Chance(3), cases: 0 };
    sample.kinds();
    sample.lengths();
    sample.broken();
    sample.short();
    sample.endings();
    sample.halves();
    sample.random();
    sample.filled();
    sample.rows();
    sample.unfilled();
    sample.random_lists();
    ExitCode::SUCCESS
}

/// The sum by which the replay holds the whole output.
fn check(out: &[u16]) -> u64 {
    out.iter().fold(0, |sum, half| sum % (1 << 48) * 257 + u64::from(*half))
}

fn hexadecimal(file: &[u64; 32]) -> String {
    file.iter().map(|word| format!("{word:016x}")).collect()
}

impl Sample {
    /// The two lines of a case: what is handed in and what comes back, then the sheet.
    fn case(&mut self, sheet: &[u8], how: How) -> [u64; 32] {
        let file = self.chance.file();
        self.case_on(sheet, how, file)
    }

    fn case_on(&mut self, sheet: &[u8], how: How, file: [u64; 32]) -> [u64; 32] {
        self.cases += 1;
        let pairs = answers::count(sheet).unwrap_or(0);
        let filled = how.filled.unwrap_or([EVERY_ROW, EVERY_MARK][self.cases % 2]);
        let room = how.room.unwrap_or(2 * pairs);
        let budget = how.budget.unwrap_or(pairs as u64);
        let words = how.file.unwrap_or(32);
        let mut out = [BEFORE; HALFWORDS];
        let (answer, index, executed, left) = match answers::translation(sheet, filled, room) {
            Err((answer, index)) => (answer, index, 0, file),
            Ok(pairs) => {
                out[..2 * pairs.len()].copy_from_slice(&code_of(&pairs));
                let ran = answers::run(&pairs, how.start, &file, budget);
                let (answer, executed, left) = if words == 32 { ran } else { (11, 0, file) };
                (answer, 0, executed, left)
            }
        };
        let given = format!("{:04x} {room:04x} {filled:04x} {:016x} {words:04x} {budget:016x}", sheet.len(), how.start);
        let answered = format!("{answer:02x} {index:04x} {executed:04x} {:016x}", check(&out));
        println!("{given} {answered} {} {}", hexadecimal(&file), hexadecimal(&left));
        println!("{}", sheet.iter().map(|byte| format!("{byte:02x}")).collect::<String>());
        left
    }

    /// Each kind by itself: all widths and signs, both ends of the amount, all agreements of its rows.
    fn kinds(&mut self) {
        for kind in 0..15 {
            for _ in 0..2 {
                let steps: Vec<_> = (0..8).map(|_| self.chance.step(kind)).collect();
                self.case(&sheet_of(&steps), How::default());
            }
        }
        for kind in [9, 10] {
            for (width, sign) in (0..4).flat_map(|width| (0..2).map(move |sign| (width, sign))) {
                let sign = if uses(kind, 's') { sign } else { 0 };
                let step = Step { width, sign, ..self.chance.step(kind) };
                let most = step.bits() - u8::from(kind == 9);
                let amounts = [0, 1, most - 1, most, most + 1];
                let steps = amounts.map(|amount| Step { amount, ..step });
                self.case(&sheet_of(&steps[..4]), How::default());
                self.case(&sheet_of(&steps), How::default());
            }
        }
        let step = self.chance.step(6);
        for (target, a, b) in [(0, 1, 1), (1, 1, 1), (13, 0, 0), (0, 0, 1), (1, 0, 1)] {
            self.case(&sheet_of(&[Step { target, a, b, ..step }]), How::default());
        }
        for (target, a, b, c) in [(0, 0, 1, 2), (1, 0, 1, 2), (2, 0, 1, 2), (3, 3, 3, 3), (4, 5, 5, 4)] {
            let step = Step { kind: 14, target, a, b, c, ..Step::default() };
            self.case(&sheet_of(&[step]), How::default());
        }
        for value in [0, 1, 1 << 8, 1 << 31, u64::MAX, 1 << 63, 0xffff_ffff, 0x0102_0304_0506_0708] {
            let step = Step { target: 13, low: value, high: value.rotate_left(17), ..Step::default() };
            self.case(&sheet_of(&[step]), How::default());
        }
    }

    /// No step, 256 steps and 257; lengths that are no multiple of 24.
    fn lengths(&mut self) {
        for (room, budget) in [(0, 0), (0, u64::MAX), (5, 1)] {
            let how = How { room: Some(room), budget: Some(budget), ..How::default() };
            self.case(&[], how);
        }
        let longest = Step { low: 0x1122_3344_5566_7788, high: 0x99aa_bbcc_ddee_ff11, ..Step::default() };
        let sheet = sheet_of(&[longest; 256]);
        self.case(&sheet, How::default());
        self.case(&sheet, How { room: Some(10239), ..How::default() });
        let steps = self.chance.steps(257);
        let sheet = sheet_of(&steps);
        self.case(&sheet[..256 * STEP], How::default());
        let how = How { room: Some(10300), ..How::default() };
        for length in [256 * STEP + 1, 257 * STEP, 1, STEP - 1, STEP + 1, 3 * STEP + 12] {
            self.case(&sheet[..length], how);
        }
    }

    /// One byte of the second step that breaks a rule: every place, used and unused; the last step and those before.
    fn broken(&mut self) {
        let how = How { room: Some(60), budget: Some(9), ..How::default() };
        self.damaged(14, 0, 15, how);
        (1..5).for_each(|row| self.damaged(14, row, 14, how));
        (5..24).for_each(|unused| self.damaged(14, unused, 1, how));
        (2..8).for_each(|unused| self.damaged(0, unused, 1, how));
        for (kind, byte, wrong) in WRONG {
            self.damaged(kind, byte, wrong, how);
        }
        let mut sheet = sheet_of(&self.chance.steps(256));
        for step in [255, 100, 3] {
            sheet[STEP * step] = 15;
            self.case(&sheet, how);
        }
    }

    fn damaged(&mut self, kind: u8, byte: usize, wrong: u8, how: How) {
        let mut sheet = sheet_of(&[self.chance.step(kind), self.chance.step(kind)]);
        sheet[STEP + byte] = wrong;
        self.case(&sheet, how);
    }

    /// Outputs a halfword short and a halfword long; 13 before 14.
    fn short(&mut self) {
        for kind in 0..15 {
            let mut sheet = sheet_of(&[self.chance.step(kind)]);
            let need = 2 * answers::count(&sheet).unwrap_or(0);
            for room in [need - 1, need + 1] {
                self.case(&sheet, How { room: Some(room), ..How::default() });
            }
            sheet[1] = 14;
            self.case(&sheet, How { room: Some(0), ..How::default() });
        }
    }

    /// Budgets around the need, going on after 15, other starts and another file.
    fn endings(&mut self) {
        for _ in 0..6 {
            let sheet = sheet_of(&self.chance.steps(4));
            let n = answers::count(&sheet).unwrap_or(0) as u64;
            let room = Some(2 * n as usize + 3);
            let how = How { room, ..How::default() };
            for budget in [0, n / 2, n - 1] {
                let left = self.case(&sheet, How { budget: Some(budget), ..how });
                self.case_on(&sheet, How { start: budget, budget: Some(n - budget), ..how }, left);
            }
            self.case(&sheet, How { budget: Some(n + 1), ..how });
            self.case(&sheet, How { budget: Some(u64::MAX), ..how });
            for start in [n, n + 1, u64::MAX] {
                self.case(&sheet, How { start, ..how });
            }
        }
        let sheet = sheet_of(&self.chance.steps(2));
        for words in [0, 1, 31] {
            self.case(&sheet, How { file: Some(words), budget: Some(0), ..How::default() });
        }
    }

    /// Each of the halves low in one row and high in one; the output as long as needed, and a halfword short.
    fn halves(&mut self) {
        for some in HALVES.chunks(14) {
            let sheet = sheet_of(&constants(some));
            let need = 2 * answers::count(&sheet).unwrap_or(0);
            for room in [need, need - 1] {
                self.case(&sheet, How { room: Some(room), ..How::default() });
            }
        }
    }

    fn random(&mut self) {
        for _ in 0..RANDOM {
            let count = 1 + self.chance.below(6);
            let steps = self.chance.steps(count);
            self.case(&sheet_of(&steps), How::default());
        }
    }

    /// Steps with a list of filled rows.
    fn listed(&mut self, steps: &[Step], filled: u16) {
        self.case(&sheet_of(steps), How { filled: Some(filled), ..How::default() });
    }

    /// The sheets with their lists.
    fn filled(&mut self) {
        for (rows, lists) in LISTED {
            let steps: Vec<_> = rows.iter().map(on_rows).collect();
            lists.iter().for_each(|filled| self.listed(&steps, *filled));
        }
    }

    /// Each row missing alone, read by a, by b and by c; then each row alone.
    fn rows(&mut self) {
        for row in 0..14 {
            let (other, target) = ((row + 1) % 14, (row + 5) % 14);
            let copy = on_rows(&[1, target, row, 0, 0]);
            let sum = on_rows(&[2, target, other, row, 0]);
            let pick = on_rows(&[14, target, other, other, row]);
            [copy, sum, pick].iter().for_each(|step| self.listed(&[*step], EVERY_MARK & !(1 << row)));
            self.listed(&[copy], 1 << row);
        }
    }

    /// 16 beside 12 and 14, and at the last of 256 steps.
    fn unfilled(&mut self) {
        let sheet = sheet_of(&[on_rows(&[0, 0, 0, 0, 0]), on_rows(&[14, 1, 0, 2, 0])]);
        let need = 2 * answers::count(&sheet).unwrap_or(0);
        for room in [0, need - 1, need, need + 1] {
            for filled in [0xfffb, 0x0004] {
                self.case(&sheet, How { filled: Some(filled), room: Some(room), ..How::default() });
            }
        }
        for length in [1, STEP + 1, 2 * STEP - 1] {
            self.case(&sheet[..length], How { filled: Some(0), ..How::default() });
        }
        let mut steps = [on_rows(&[0, 3, 0, 0, 0]); 256];
        steps[255] = on_rows(&[5, 4, 3, 13, 0]);
        [0x1fff, 0xd000, 0x2000].into_iter().for_each(|filled| self.listed(&steps, filled));
    }

    /// Random sheets with random lists.
    fn random_lists(&mut self) {
        for _ in 0..RANDOM {
            let count = 1 + self.chance.below(6);
            let steps = self.chance.steps(count);
            let (_, filled) = self.chance.list(needed(&steps));
            self.listed(&steps, filled);
        }
    }
}

/// A step of a kind on rows, with lanes of 8 bits, amount and sign 0, and 0 for a constant.
fn on_rows(&[kind, target, a, b, c]: &[u8; 5]) -> Step {
    Step { kind, target, a, b, c, ..Step::default() }
}
