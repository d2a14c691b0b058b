//! How fast pairs are stepped beside a plain interpreter: the same pairs on the same registers, in
//! turns, first those of the plain names with registers of one length, then of the saturating and
//! halving ones, then of those with registers of different lengths. Ours is the program named by the
//! argument, and the time of its start is taken off. Before that the two must write the same
//! line, for the rounds that the gate runs too.

use oracle::clock::{beside, ROUNDS};
use oracle::isa::{FpReg, Operand};
use oracle::{decode, Report};
use std::hint::black_box;
use std::io::Write;
use std::process::{Command, ExitCode, Stdio};

/// D0 to D31 at the start, and the pairs, as our program reads them.
const CASES: &str = include_str!("../../crates/step_bench/stdin");
/// The line that the gate holds our program to, and its rounds.
const GATE: &str = include_str!("../../crates/step_bench/stdout");
const GATE_TIMES: &str = include_str!("../../crates/step_bench/args");

/// How often the list of pairs is stepped in one measurement.
const TIMES: usize = 5_000;

type Pairs = [[u16; 2]];

fn main() -> ExitCode {
    let program = std::env::args().nth(1).expect("the program that steps pairs");
    let (list, start) = cases();
    let (same, unlike) = split(&list, differ);
    let (plain, ends) = split(same, saturates_or_halves);
    let groups = [("one length", plain), ("saturating and halving", ends), ("different lengths", unlike)];
    let mut report = Report::default();
    let gate = GATE_TIMES.trim().parse().expect("the rounds of the gate");
    report.expect(GATE.to_owned(), interpreted(&list, start, gate), || "the gate's line".to_owned());
    for (what, list) in [("all", &list[..])].into_iter().chain(groups) {
        for times in [0, 1, 2, gate, TIMES] {
            let theirs = interpreted(list, start, times);
            let what = || format!("{what}, {times} rounds of the list");
            report.expect(stepped(&program, list, start, times), theirs, what);
        }
    }
    for (what, list) in groups {
        tell(what, &program, list, start);
    }
    report.status()
}

/// The one line of a measurement.
fn tell(what: &str, program: &str, list: &Pairs, start: [u64; 32]) {
    let pairs = TIMES * list.len();
    let interpret = || drop(black_box(interpreted(list, start, TIMES)));
    let ours = |times| drop(stepped(program, list, start, times));
    let (interpreter, whole) = beside(pairs, interpret, || ours(TIMES));
    let (_, begin) = beside(pairs, || (), || ours(0));
    let ours = whole - begin;
    println!(
        "speed_step: {what}, {pairs} pairs, median of {ROUNDS} rounds: \
         interpreter {interpreter:.1} ns, ours {ours:.1} ns, {:.1} times as fast",
        interpreter / ours
    );
}

/// The pairs of the cases, and the registers at the start.
fn cases() -> (Vec<[u16; 2]>, [u64; 32]) {
    let (pairs, registers): (Vec<&str>, Vec<&str>) = CASES.lines().partition(|l| l.contains(' '));
    let half = |digits| u16::from_str_radix(digits, 16).expect("a halfword");
    let list = pairs.iter().filter_map(|l| l.split_once(' ')).map(|(a, b)| [half(a), half(b)]);
    let mut start = [0; 32];
    for (place, digits) in start.iter_mut().zip(&registers) {
        *place = u64::from_str_radix(digits, 16).expect("a doubleword");
    }
    (list.collect(), start)
}

/// Whether a pair has registers of different lengths.
fn differ(&[hw1, hw2]: &[u16; 2]) -> bool {
    let operands = decode(hw1, hw2, 0).expect("a pair that is read").operands;
    let lengths: Vec<_> = operands.as_slice().filter_map(doublewords).map(|r| r.1).collect();
    lengths.windows(2).any(|two| two[0] != two[1])
}

/// The list before the first pair of a sort, and from it on, where all are of that sort.
fn split(list: &Pairs, sort: fn(&[u16; 2]) -> bool) -> (&Pairs, &Pairs) {
    let (before, from) = list.split_at(list.iter().position(sort).unwrap_or(list.len()));
    assert!(from.iter().all(sort), "the pairs of a sort stand together");
    (before, from)
}

/// Whether a pair has a saturating or halving name.
fn saturates_or_halves(&[hw1, hw2]: &[u16; 2]) -> bool {
    let name = decode(hw1, hw2, 0).expect("a pair that is read").mnemonic;
    ["vqadd", "vqsub", "vhadd", "vrhadd", "vhsub"].iter().any(|stem| name.starts_with(stem))
}

/// The line that our program writes.
fn stepped(program: &str, list: &Pairs, start: [u64; 32], times: usize) -> String {
    let registers: String = start.iter().map(|x| format!("{x:016x}\n")).collect();
    let pairs: String = list.iter().map(|[a, b]| format!("{a:04x} {b:04x}\n")).collect();
    let mut command = Command::new(program);
    let piped = command.arg(times.to_string()).stdin(Stdio::piped()).stdout(Stdio::piped());
    let mut child = piped.spawn().expect("our program runs");
    child.stdin.take().unwrap().write_all((registers + &pairs).as_bytes()).expect("it reads them");
    let output = child.wait_with_output().expect("our program ends");
    String::from_utf8_lossy(&output.stdout).into_owned()
}

/// The line that it has to write.
fn interpreted(list: &Pairs, start: [u64; 32], times: usize) -> String {
    let mut file = start;
    let mut mark = false;
    let mut done = 0;
    for _ in 0..times {
        for &[hw1, hw2] in black_box(list) {
            done += usize::from(step(&mut file, &mut mark, hw1, hw2).is_some());
        }
    }
    let sum = file.iter().fold(0, |sum: u64, &x| sum.wrapping_add(x));
    format!("{done} pairs, registers {sum}, mark {}\n", u8::from(mark))
}

/// One pair on the registers and the saturation mark; none where it has no meaning, and then nothing
/// is written.
fn step(file: &mut [u64; 32], mark: &mut bool, hw1: u16, hw2: u16) -> Option<()> {
    let insn = decode(hw1, hw2, 0)?;
    let (stem, kind) = insn.mnemonic.split_once('.').unwrap_or((insn.mnemonic, ""));
    let lane = lane(kind);
    let mut operands = insn.operands.as_slice();
    let (target, second, third) = (operands.next()?, operands.next()?, operands.next());
    let (d, count) = doublewords(target)?;
    let (n, m) = (doublewords(second), third.and_then(doublewords));
    if n.is_some_and(|n| n.1 != count) || m.is_some_and(|m| m.1 != count) {
        return unlike(file, stem, lane?, (d, count), n?, third);
    }
    for half in 0..count {
        let source = |(at, _)| file[at + half];
        let old = file[d + half];
        file[d + half] = match (second, third) {
            (Operand::Imm(v), None) => constant(stem, repeated(lane?.width, v as u64), old)?,
            (Operand::FpImm(v), None) => repeated(32, (v as f32).to_bits().into()),
            (_, None) => source(n?),
            (_, Some(Operand::Imm(k))) => shifted(stem, lane?, source(n?), k as u32)?,
            (_, Some(_)) if kind.is_empty() => bitwise(stem, old, source(n?), source(m?))?,
            (_, Some(_)) => lanes(stem, lane?, mark, old, source(n?), source(m?))?,
        };
    }
    Some(())
}

/// A register's first doubleword, and how many it has.
type Register = (usize, usize);

fn doublewords(operand: Operand) -> Option<Register> {
    match operand {
        Operand::FpReg(FpReg::D(n)) => Some((n.into(), 1)),
        Operand::FpReg(FpReg::Q(n)) => Some((2 * usize::from(n), 2)),
        _ => None,
    }
}

/// The width of lanes, and whether they have a sign.
#[derive(Clone, Copy)]
struct Lane {
    width: u32,
    signed: bool,
}

/// The lanes of a kind; none for polynomials and floats.
fn lane(kind: &str) -> Option<Lane> {
    let width = match kind.trim_start_matches(['i', 's', 'u']) {
        "8" => 8,
        "16" => 16,
        "32" => 32,
        "64" => 64,
        _ => return None,
    };
    Some(Lane { width, signed: kind.starts_with('s') })
}

/// The lowest bits of a number in every lane.
fn repeated(w: u32, v: u64) -> u64 {
    each(w, 0, 0, 0, |_, _, _| v)
}

/// A function of the lanes of three doublewords, lane by lane.
fn each(w: u32, d: u64, n: u64, m: u64, mut f: impl FnMut(u64, u64, u64) -> u64) -> u64 {
    let mask = u64::MAX >> (64 - w);
    let lane = |x: u64, at: u32| x >> at & mask;
    (0..64)
        .step_by(w as usize)
        .fold(0, |all, at| all | (f(lane(d, at), lane(n, at), lane(m, at)) & mask) << at)
}

fn constant(stem: &str, v: u64, d: u64) -> Option<u64> {
    Some(match stem {
        "vmov" => v,
        "vmvn" => !v,
        "vorr" => d | v,
        "vbic" => d & !v,
        _ => return None,
    })
}

fn bitwise(stem: &str, d: u64, n: u64, m: u64) -> Option<u64> {
    Some(match stem {
        "vand" => n & m,
        "vorr" => n | m,
        "veor" => n ^ m,
        "vbic" => n & !m,
        "vorn" => n | !m,
        "vbsl" => n & d | m & !d,
        "vbit" => n & m | d & !m,
        "vbif" => d & m | n & !m,
        _ => return None,
    })
}

/// A lane as a whole number, by its sign where the name says so.
fn whole(w: u32, signed: bool, x: u64) -> i64 {
    if signed { (x << (64 - w)) as i64 >> (64 - w) } else { x as i64 }
}

/// The same with room for a sum of two of 64 bits.
fn exact(lane: Lane, x: u64) -> i128 {
    if lane.signed { whole(lane.width, true, x).into() } else { x.into() }
}

/// A number, moved to the nearer end of the range when outside it, which turns the mark yes.
fn clamped(lane: Lane, mark: &mut bool, z: i128) -> u64 {
    let low = if lane.signed { -1 << (lane.width - 1) } else { 0 };
    let kept = z.clamp(low, low + (1 << lane.width) - 1);
    *mark |= kept != z;
    kept as u64
}

fn shifted(stem: &str, lane: Lane, n: u64, k: u32) -> Option<u64> {
    let w = lane.width;
    Some(match (stem, lane.signed) {
        ("vshl", _) => each(w, 0, n, 0, |_, n, _| n << k),
        ("vshr", true) => each(w, 0, n, 0, |_, n, _| (whole(w, true, n) >> k.min(63)) as u64),
        ("vshr", false) => each(w, 0, n, 0, |_, n, _| n.checked_shr(k).unwrap_or(0)),
        _ => return None,
    })
}

fn lanes(stem: &str, lane: Lane, mark: &mut bool, d: u64, n: u64, m: u64) -> Option<u64> {
    let w = lane.width;
    let whole = |x| whole(w, lane.signed, x);
    let ones = |holds: bool| if holds { u64::MAX } else { 0 };
    Some(match stem {
        "vadd" => each(w, d, n, m, |_, n, m| n.wrapping_add(m)),
        "vsub" => each(w, d, n, m, |_, n, m| n.wrapping_sub(m)),
        "vmul" => each(w, d, n, m, |_, n, m| n.wrapping_mul(m)),
        "vmla" => each(w, d, n, m, |d, n, m| d.wrapping_add(n.wrapping_mul(m))),
        "vmls" => each(w, d, n, m, |d, n, m| d.wrapping_sub(n.wrapping_mul(m))),
        "vmax" => each(w, d, n, m, |_, n, m| if whole(n) < whole(m) { m } else { n }),
        "vmin" => each(w, d, n, m, |_, n, m| if whole(m) < whole(n) { m } else { n }),
        "vcgt" => each(w, d, n, m, |_, n, m| ones(whole(n) > whole(m))),
        "vcge" => each(w, d, n, m, |_, n, m| ones(whole(n) >= whole(m))),
        "vceq" => each(w, d, n, m, |_, n, m| ones(n == m)),
        "vtst" => each(w, d, n, m, |_, n, m| ones(n & m != 0)),
        "vqadd" => each(w, d, n, m, |_, n, m| clamped(lane, mark, exact(lane, n) + exact(lane, m))),
        "vqsub" => each(w, d, n, m, |_, n, m| clamped(lane, mark, exact(lane, n) - exact(lane, m))),
        "vhadd" => each(w, d, n, m, |_, n, m| ((whole(n) + whole(m)) >> 1) as u64),
        "vrhadd" => each(w, d, n, m, |_, n, m| ((whole(n) + whole(m) + 1) >> 1) as u64),
        "vhsub" => each(w, d, n, m, |_, n, m| ((whole(n) - whole(m)) >> 1) as u64),
        _ => return None,
    })
}

/// One pair with registers of different lengths, worked out whole before the target is written.
fn unlike(
    file: &mut [u64; 32],
    stem: &str,
    lane: Lane,
    target: Register,
    second: Register,
    third: Option<Operand>,
) -> Option<()> {
    let halves = |(at, count)| [file[at], if count == 2 { file[at + 1] } else { file[at] >> 32 }];
    let m = match third {
        None => [0; 2],
        Some(Operand::Imm(k)) => [k as u64; 2],
        Some(m) => halves(doublewords(m)?),
    };
    let width = if target.1 == 2 { lane.width } else { lane.width / 2 };
    let result = mixed(stem, Lane { width, ..lane }, halves(target), halves(second), m)?;
    match target {
        (d, 2) => file[d..d + 2].copy_from_slice(&result),
        (d, _) => file[d] = result[0] | result[1] << 32,
    }
    Some(())
}

/// A register's halves, each from bit 0 on; of a doubleword's only the lowest 32 bits are read.
type Halves = [u64; 2];

/// What a name makes of short lanes, of w bits, and long ones; m may be an amount.
fn mixed(stem: &str, lane: Lane, d: Halves, n: Halves, m: Halves) -> Option<Halves> {
    let w = lane.width;
    let mask = u64::MAX >> (64 - w);
    let short = |x: u64, i: u32| whole(w, lane.signed, x >> (w * i) & mask) as u64;
    let long = |x: u64, i: u32| x >> (2 * w * i);
    let product = |h: usize, i| short(n[h], i).wrapping_mul(short(m[h], i));
    Some(match stem {
        "vaddl" => packed(w, 2 * w, |h, i| short(n[h], i).wrapping_add(short(m[h], i))),
        "vsubl" => packed(w, 2 * w, |h, i| short(n[h], i).wrapping_sub(short(m[h], i))),
        "vmull" => packed(w, 2 * w, product),
        "vmlal" => packed(w, 2 * w, |h, i| long(d[h], i).wrapping_add(product(h, i))),
        "vmlsl" => packed(w, 2 * w, |h, i| long(d[h], i).wrapping_sub(product(h, i))),
        "vaddw" => packed(w, 2 * w, |h, i| long(n[h], i).wrapping_add(short(m[h], i))),
        "vsubw" => packed(w, 2 * w, |h, i| long(n[h], i).wrapping_sub(short(m[h], i))),
        "vmovl" => packed(w, 2 * w, |h, i| short(n[h], i)),
        "vshll" => packed(w, 2 * w, |h, i| short(n[h], i) << m[h]),
        "vaddhn" => packed(w, w, |h, i| long(n[h], i).wrapping_add(long(m[h], i)) >> w),
        "vsubhn" => packed(w, w, |h, i| long(n[h], i).wrapping_sub(long(m[h], i)) >> w),
        "vshrn" => packed(w, w, |h, i| long(n[h], i) >> m[h]),
        _ => return None,
    })
}

/// The lowest bits, as many as a lane of the result has, of each number; 32 / w of them are a half.
fn packed(w: u32, bits: u32, f: impl Fn(usize, u32) -> u64) -> Halves {
    let mask = u64::MAX >> (64 - bits);
    [0, 1].map(|half| (0..32 / w).fold(0, |all, i| all | (f(half, i) & mask) << (bits * i)))
}
