//! Sheets translated and run on both sides, and everything that comes back compared.

use crate::answers::{self, LONGEST};
use crate::boundary;
use crate::chance::{sheet_of, Chance};
use crate::counts::Counts;
use crate::model::{self, uses, EVERY_MARK, EVERY_ROW};
use crate::pairs::{code_of, of_half, Pair};
use crate::report::Report;
use crate::step::{steps_of, Step, STEP};
use std::process::ExitCode;

/// Halfwords after the output that nobody may touch.
const BEYOND: usize = 4;

/// Pairs that a run refuses, with the number.
const REFUSED: [([u16; 2], u32); 12] = [
    ([0xefb0, 0x0000], 1),
    ([0x0000, 0x0000], 1),
    ([0xef90, 0x0e10], 2),
    ([0xef80, 0x0f30], 3),
    ([0xef80, 0x0210], 4),
    ([0xef00, 0x0b50], 5),
    ([0xef80, 0x1000], 6),
    ([0xef01, 0x0402], 10),
    ([0xef80, 0x0700], 10),
    ([0xff80, 0x0400], 10),
    ([0xef00, 0x0b10], 10),
    ([0xefa0, 0x0e10], 10),
];

#[derive(Default)]
pub struct Compared {
    pub report: Report,
    pub counts: Counts,
    /// The sheets so far.
    pub sheets: u64,
    /// The chances of the marks, which change no other case.
    marks: Chance,
}

/// The answer and the output of ours, and what the model gives.
pub struct Translation {
    pub ours: (u32, u64),
    pub out: Vec<u16>,
    pub due: Result<Vec<Pair>, (u32, u64)>,
}

pub fn compare(count: usize) -> ExitCode {
    let mut all = Compared::default();
    let mut chance = Chance(1);
    for _ in 0..count {
        all.sheet(&mut chance);
    }
    println!("sheets {count}");
    all.counts.print();
    println!("{} disagreements", all.report.disagreements);
    all.report.status()
}

impl Compared {
    /// One sheet: valid, with bytes damaged, or of any bytes; some then of a wrong length. It is compared with every
    /// row filled, then with a list of its own.
    fn sheet(&mut self, chance: &mut Chance) {
        let count = chance.count();
        let steps = chance.steps(count);
        let mut sheet = sheet_of(&steps);
        let sort = if steps.is_empty() { 0 } else { chance.one(&[0, 0, 0, 0, 0, 0, 0, 0, 0, 0, 1, 1, 1, 1, 2, 3]) };
        match sort {
            1 => self.damaged(chance, &steps, &mut sheet),
            2 => {
                chance.damage(&mut sheet);
                chance.damage(&mut sheet);
            }
            3 => sheet.iter_mut().for_each(|byte| *byte = chance.word() as u8 & 15),
            _ => {}
        }
        self.counts.add("sheets made (0 valid, 1 a byte replaced, 2 two bytes, 3 any bytes)", sort);
        let needed = model::needed(&steps_of(&sheet));
        if chance.once_in(16) {
            wrong_length(chance, &mut sheet);
        }
        self.sheets += 1;
        let every = if self.sheets % 2 == 0 { EVERY_ROW } else { EVERY_MARK };
        self.translated(chance, &sheet, every);
        let answer = self.evaluated(&mut Chance(self.sheets << 32), &sheet, every);
        self.counts.add("evaluation answers", answer.into());
        self.listed(&sheet, needed);
    }

    /// One byte replaced.
    fn damaged(&mut self, chance: &mut Chance, steps: &[Step], sheet: &mut [u8]) {
        let (at, byte) = chance.damage(sheet);
        if let Err((13, _)) = answers::translation(sheet, EVERY_ROW, usize::MAX) {
            self.counts.add("refused for the byte", byte as u64);
            self.counts.saw("kinds and bytes refused", &[steps[at].kind, byte as u8]);
            self.counts.saw("kinds, bytes and values refused", &[steps[at].kind, byte as u8, sheet[STEP * at + byte]]);
        }
    }

    /// A sheet translated into an output of some length; then its runs.
    fn translated(&mut self, chance: &mut Chance, sheet: &[u8], filled: u16) {
        let need = need(chance, sheet);
        let room = room(chance, need);
        let Translation { out, due, .. } = self.translation(chance, sheet, filled, room);
        self.counts.add("translation answers", number(&due));
        if let Err((14, _)) = due {
            self.counts.add("halfwords missing at 14 (9: more)", (need - room).min(9) as u64);
        }
        if let Ok(pairs) = due {
            self.counts.add("halfwords left over (9: more)", (room - need).min(9) as u64);
            self.covered(&steps_of(sheet));
            self.runs(chance, &steps_of(sheet), &pairs, &out[..2 * pairs.len()]);
        }
    }

    /// One translation into so many halfwords compared.
    pub fn translation(&mut self, chance: &mut Chance, sheet: &[u8], filled: u16, room: usize) -> Translation {
        let mut out: Vec<u16> = (0..room + BEYOND).map(|_| chance.word() as u16).collect();
        let mut due_out = out.clone();
        let due = answers::translation(sheet, filled, room);
        let answer = match &due {
            Ok(pairs) => (0, pairs.len() as u64),
            Err(refusal) => *refusal,
        };
        if let Ok(pairs) = &due {
            due_out[..2 * pairs.len()].copy_from_slice(&code_of(pairs));
        }
        let ours = boundary::translate(sheet, filled, &mut out[..room]);
        self.report.expect(ours, answer, || format!("translation of {sheet:x?} with {filled:04x} into {room}"));
        self.report.expect(&out, &due_out, || format!("output of {sheet:x?} with {filled:04x} in {room}"));
        Translation { ours, out, due }
    }

    /// The sheet translated and run by one call; the number due. Its chances are its own and change no other case.
    pub fn evaluated(&mut self, chance: &mut Chance, sheet: &[u8], filled: u16) -> u32 {
        let n = answers::count(sheet).unwrap_or(0);
        let room = room(chance, 2 * n);
        let budget = chance.one(&[n, n, n, n + 1, n / 2, n.saturating_sub(1), 0, usize::MAX]) as u64;
        let words = chance.one(&[32, 32, 32, 32, 32, 32, 32, 31, 33, 0]);
        self.evaluation(chance, sheet, filled, room, budget, words)
    }

    /// One evaluation into so many halfwords, on a file of so many words, compared; the number due.
    pub fn evaluation(
        &mut self,
        chance: &mut Chance,
        sheet: &[u8],
        filled: u16,
        room: usize,
        budget: u64,
        words: usize,
    ) -> u32 {
        let file: Vec<u64> = (0..words).map(|_| chance.doubleword()).collect();
        let mut left = file.clone();
        let mut out: Vec<u16> = (0..room + BEYOND).map(|_| chance.word() as u16).collect();
        let mut due_out = out.clone();
        if let Ok(pairs) = answers::translation(sheet, filled, room) {
            due_out[..2 * pairs.len()].copy_from_slice(&code_of(&pairs));
        }
        let mark = self.mark();
        let due = answers::evaluation(sheet, filled, room, &file, budget);
        let ours = boundary::evaluate(sheet, filled, &mut out[..room], &mut left, budget, mark);
        let (answer, at, executed, marked) = ours;
        let call = || format!("evaluation of {sheet:x?} with {filled:04x} into {room}");
        let case = || format!("{} with {budget} on {file:x?}, mark {mark}", call());
        let due_mark = answers::mark(mark);
        self.report.expect((answer, at, executed, &left, marked), (due.0, due.1, due.2, &due.3, due_mark), case);
        self.report.expect(&out, &due_out, || format!("output of the {}", call()));
        if let (0, Ok(file), Ok(left)) = (due.0, <&[u64; 32]>::try_from(&file[..]), <&[u64; 32]>::try_from(&left[..])) {
            let rows = model::meaning(&steps_of(sheet), model::rows_of(file));
            self.report.expect(model::rows_of(left), rows, || format!("rows of the {}", call()));
        }
        self.counts.add("evaluations with a mark of", mark.into());
        due.0
    }

    /// The mark that the next call is handed.
    fn mark(&mut self) -> u8 {
        self.marks.mark()
    }

    /// The steps of a translated sheet, counted.
    fn covered(&mut self, steps: &[Step]) {
        let size = [0, 1, 8, 40, 255, 256].into_iter().find(|n| steps.len() <= *n).expect("at most 256");
        self.counts.add("translated sheets, steps up to", size as u64);
        for step in steps {
            let Step { kind, target, width, amount, sign, low, high, .. } = *step;
            self.counts.add("steps of kind", kind.into());
            self.counts.saw("kinds with width and sign", &[kind, width, sign]);
            if uses(kind, 'l') || uses(kind, 'r') {
                self.counts.saw("shifts with width, sign and amount", &[kind, width, sign, amount]);
            }
            if kind == 0 {
                self.halves(low, high);
            }
            let rows = [vec![target], step.reads().map(|(_, row)| row).collect()].concat();
            let first = |row: &u8| rows.iter().position(|other| other == row).expect("itself") as u8;
            let form = [vec![kind], rows.iter().map(first).collect()].concat();
            self.counts.saw("kinds with agreements among their rows", &form);
        }
    }

    /// The two halves of a constant, counted.
    fn halves(&mut self, low: u64, high: u64) {
        for half in [low, high] {
            let pairs = of_half(0, half).len() as u64;
            self.counts.add("constant halves of pairs", pairs);
            if pairs == 1 {
                self.counts.saw("constant halves of one pair", &half.to_le_bytes());
            }
        }
    }

    /// One run compared; the file that ours leaves.
    fn run(
        &mut self,
        code: &[u16],
        start: u64,
        file: &[u64; 32],
        budget: u64,
        due: (u32, u64, [u64; 32]),
    ) -> [u64; 32] {
        let mut left = *file;
        let mark = self.mark();
        let (answer, executed, marked) = boundary::run(code, start, &mut left, budget, mark);
        let case = || format!("run of {code:x?} from {start} with {budget} on {file:x?}, mark {mark}");
        self.report.expect((answer, executed, left, marked), (due.0, due.1, due.2, answers::mark(mark)), case);
        self.counts.add("run answers", due.0.into());
        self.counts.add("runs with a mark of", mark.into());
        left
    }

    /// The runs of a translation: whole, cut short and gone on with, and some that are refused.
    fn runs(&mut self, chance: &mut Chance, steps: &[Step], pairs: &[Pair], code: &[u16]) {
        let n = pairs.len() as u64;
        let file = chance.file();
        let budget = chance.one(&[n, n, n + 1, u64::MAX, n + 1000]);
        let left = self.run(code, 0, &file, budget, answers::run(pairs, 0, &file, budget));
        let rows = model::meaning(steps, model::rows_of(&file));
        self.report.expect(model::rows_of(&left), rows, || format!("rows of {steps:x?} on {file:x?}"));
        self.counts.add("whole runs, budget beyond the need (9: more)", (budget - n).min(9));
        if n > 0 {
            let any = chance.below(pairs.len()) as u64;
            let budget = chance.one(&[0, 1.min(n - 1), n - 1, any, any]);
            let middle = self.run(code, 0, &file, budget, answers::run(pairs, 0, &file, budget));
            let rest = chance.one(&[n - budget, n, u64::MAX]);
            let end = self.run(code, budget, &middle, rest, (0, n - budget, left));
            self.report.expect(model::rows_of(&end), rows, || format!("rows gone on to, {steps:x?}"));
            self.counts.add("runs gone on with, budget below the need by (9: more)", (n - budget).min(9));
        }
        match chance.below(8) {
            0 => self.started(chance, pairs, code, &file),
            1 => self.odd(chance, code, &file),
            2 => self.wrong_file(chance, code, n),
            3 => self.refused_pair(chance, pairs, code, &file),
            _ => {}
        }
    }

    /// A run from any start, also past the end.
    fn started(&mut self, chance: &mut Chance, pairs: &[Pair], code: &[u16], file: &[u64; 32]) {
        let n = pairs.len() as u64;
        let any = chance.below(pairs.len() + 1) as u64;
        let start = chance.one(&[any, any, any, n, n + 1, 2 * n + 1, u64::MAX, 1 << 63]);
        let budget = chance.one(&[0, n.saturating_sub(start), n, u64::MAX]);
        self.run(code, start, file, budget, answers::run(pairs, start, file, budget));
        let place = if start == 0 { 0 } else { 1 + u64::from(start >= n) + u64::from(start > n) };
        self.counts.add("runs from a start (0 at 0, 1 inside, 2 the end, 3 past it)", place);
    }

    /// An odd halfword count.
    fn odd(&mut self, chance: &mut Chance, code: &[u16], file: &[u64; 32]) {
        let mut code = code.to_vec();
        if code.is_empty() || chance.once_in(2) {
            code.push(0xef22);
        } else {
            code.pop();
        }
        let (start, budget) = (chance.one(&[0, 0, 1, u64::MAX]), chance.one(&[0, 1, u64::MAX]));
        self.run(&code, start, file, budget, (11, 0, *file));
        self.counts.add("runs of halfwords, modulo 2", code.len() as u64 % 2);
    }

    /// A file of another length, left as it was.
    fn wrong_file(&mut self, chance: &mut Chance, code: &[u16], n: u64) {
        let words = chance.one(&[0, 1, 31, 33, 64]);
        let file: Vec<u64> = (0..words).map(|_| chance.word()).collect();
        let mut left = file.clone();
        let mark = self.mark();
        let ours = boundary::run(code, 0, &mut left, chance.one(&[0, n, u64::MAX]), mark);
        let due = (11, 0, answers::mark(mark));
        self.report.expect((ours, left), (due, file), || format!("a file of {words}, mark {mark}"));
        self.counts.add("run answers", 11);
        self.counts.add("runs with a mark of", mark.into());
        self.counts.add("runs with a file of", words);
    }

    /// A pair that is refused, put in anywhere; a used-up budget comes before it.
    fn refused_pair(&mut self, chance: &mut Chance, pairs: &[Pair], code: &[u16], file: &[u64; 32]) {
        let (pair, number) = chance.one(&REFUSED);
        let at = chance.below(pairs.len() + 1);
        let code = [&code[..2 * at], &pair, &code[2 * at..]].concat();
        let budget = chance.one(&[0, at as u64, at as u64 + 1, u64::MAX]);
        let (_, executed, left) = answers::run(&pairs[..at], 0, file, budget);
        let answer = if budget > at as u64 { number } else { 15 };
        self.run(&code, 0, file, budget, (answer, executed, left));
    }
}

/// The sheet cut, lengthened, or made longer than a sheet may be.
fn wrong_length(chance: &mut Chance, sheet: &mut Vec<u8>) {
    match chance.below(4) {
        0 => sheet.truncate(sheet.len().saturating_sub(1 + chance.below(STEP - 1))),
        1 => sheet.resize(sheet.len() + 1 + chance.below(STEP - 1), 0),
        2 => sheet.resize(LONGEST + 1 + chance.below(100), 0),
        _ => sheet.resize(LONGEST + STEP * (1 + chance.below(3)), 0),
    }
}

/// The number of an answer, 0 for pairs.
pub fn number(due: &Result<Vec<Pair>, (u32, u64)>) -> u64 {
    due.as_ref().err().map_or(0, |(answer, _)| u64::from(*answer))
}

/// The halfwords that a sheet needs once every row is filled; any few for one with another fault.
pub fn need(chance: &mut Chance, sheet: &[u8]) -> usize {
    answers::count(sheet).map_or_else(|| chance.below(64), |pairs| 2 * pairs)
}

/// An output's length around the need.
pub fn room(chance: &mut Chance, need: usize) -> usize {
    let more = chance.below(100);
    let less = chance.below(need + 1);
    match chance.below(16) {
        0..=4 => need,
        5 | 6 => need + 1,
        7 => need + 2,
        8 | 9 => need + more,
        10 => need + 10240,
        11 | 12 => need.saturating_sub(1),
        13 => need.saturating_sub(2),
        14 => less,
        _ => 0,
    }
}
