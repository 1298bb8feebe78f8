//! Whole equalizing calls: a line for each case, what the equalizer holds and the samples of two
//! calls that follow one another, then what the Rust gives and leaves.

use std::io::{self, Write};

use crate::Reference;
use crate::cases::{Case, case, stream};
use crate::inputs::Random;
use crate::kernels::dot::DotComplex;
use crate::kernels::equalize::{
    EqMode, Equalize, EqualizeState, MSE_ALPHA, OracleRecord, equalize_with,
};
use crate::line::{Line, bits, number};
use crate::numbers;
use crate::reference::dot::Document01Dot;
use crate::types::C32;

type State = EqualizeState<Vec<C32>, Vec<C32>>;

/// What the calls give and leave.
struct Answer {
    output: Vec<C32>,
    state: State,
}

/// A mark and a number for each sample, which the calls of the Rust do not give.
#[derive(Default)]
struct Notes {
    marks: Vec<u8>,
    numbers: Vec<u8>,
}

/// Which of the rarer things happened, over all cases.
#[derive(Default, Debug)]
struct Seen {
    samples: u64,
    blank: u64,
    spilled: u64,
    output_infinite: u64,
    error_power_infinite: u64,
    silent: u64,
    off_scale: u64,
    /// Samples with a number, by constellation.
    numbered: [u64; 5],
    power_infinite: u64,
    switches: u64,
    weights_set_back: u64,
    weights_flushed: u64,
    mse_flushed: u64,
    freq_flushed: u64,
    mse_not_finite: u64,
    no_samples: u64,
    two_calls: u64,
    disagreements: u64,
}

/// Writes `count` cases. Whether no two ways of running the Rust disagreed.
pub fn write(out: &mut impl Write, seed: u64, count: u64, long: bool) -> io::Result<bool> {
    let mut r = Random::new(seed);
    let mut seen = Seen::default();
    for _ in 0..count {
        let case = case(&mut r, long);
        let (answer, notes) = answer(&case, &mut seen);
        line(&case, &answer, &notes).write(out)?;
    }
    out.flush()?;
    eprintln!("calls: {count} lines, {seen:?}");
    Ok(seen.disagreements == 0)
}

/// Writes `rounds` streams of 200 samples, each cut into two calls at every place, and each with the
/// switch of mode after each of the first 64 samples.
pub fn write_places(out: &mut impl Write, seed: u64, rounds: u64) -> io::Result<bool> {
    let mut r = Random::new(seed);
    let mut seen = Seen::default();
    let mut lines = 0u64;
    for _ in 0..rounds {
        let base = stream(&mut r, 200);
        let cuts = (0..=200).map(|k| base.with_blocks([k, 200 - k]));
        let switches = (0..64).map(|p| base.switching_after(p + 1));
        for case in cuts.chain(switches) {
            let (answer, notes) = answer(&case, &mut seen);
            line(&case, &answer, &notes).write(out)?;
            lines += 1;
        }
    }
    out.flush()?;
    eprintln!("places: {lines} lines, {seen:?}");
    Ok(seen.disagreements == 0)
}

/// Writes one case.
pub fn write_one(out: &mut impl Write, case: &Case) -> io::Result<bool> {
    let mut seen = Seen::default();
    let (answer, notes) = answer(case, &mut seen);
    line(case, &answer, &notes).write(out)?;
    Ok(seen.disagreements == 0)
}

fn line(case: &Case, answer: &Answer, notes: &Notes) -> Line {
    let mut line = Line::default();
    line.record(&case.record);
    line.count(case.weights.len());
    line.count(case.blocks[0]);
    line.count(case.blocks[1]);
    line.given_all(&case.weights);
    line.given_all(&case.window);
    line.given_all(&case.input);
    line.result_all(&answer.output);
    line.marks(&notes.marks);
    line.numbers(&notes.numbers);
    line.record(&answer.state.oracle_record());
    line.result_all(answer.state.weights());
    line.result_all(answer.state.history());
    line
}

fn start(case: &Case) -> Answer {
    Answer {
        output: vec![C32::new(f32::NAN, f32::NAN); case.input.len()],
        state: State::oracle_from(case.weights.clone(), case.window.clone(), case.record),
    }
}

/// Runs a case in blocks of the given lengths.
fn run(case: &Case, blocks: &[usize], call: impl Fn(&mut State, &[C32], &mut [C32])) -> Answer {
    let mut a = start(case);
    let mut from = 0;
    for &length in blocks {
        let to = from + length;
        call(&mut a.state, &case.input[from..to], &mut a.output[from..to]);
        from = to;
    }
    a
}

fn quick(s: &mut State, x: &[C32], y: &mut [C32]) {
    equalize_with(&Document01Dot, s, x, y).expect("the lengths agree");
}

fn plain(s: &mut State, x: &[C32], y: &mut [C32]) {
    Reference.equalize(s, x, y).expect("the lengths agree");
}

/// The answer of `equalize_with`, and the notes. `Reference` and a run sample by sample have to
/// agree with it.
fn answer(case: &Case, seen: &mut Seen) -> (Answer, Notes) {
    let a = run(case, &case.blocks, quick);
    let b = run(case, &case.blocks, plain);
    let (c, notes) = sample_by_sample(case, seen);
    for (other, name) in [(&b, "Reference"), (&c, "sample by sample")] {
        if !agree(&a, other) {
            seen.disagreements += 1;
            let mut text = Vec::new();
            line(case, &a, &notes)
                .write(&mut text)
                .expect("a Vec takes any text");
            eprintln!("DISAGREEMENT of equalize_with and {name} in this case:");
            eprint!("{}", String::from_utf8_lossy(&text));
        }
    }
    seen.no_samples += u64::from(case.input.is_empty());
    seen.two_calls += u64::from(case.blocks[1] > 0);
    seen.mse_not_finite += u64::from(!a.state.oracle_record().mse.is_finite());
    (a, notes)
}

fn sample_by_sample(case: &Case, seen: &mut Seen) -> (Answer, Notes) {
    let mut a = start(case);
    let mut notes = Notes::default();
    let k = case.record.params.constellation;
    for (x, z) in case.input.chunks(1).zip(a.output.chunks_mut(1)) {
        let before = a.state.clone();
        quick(&mut a.state, x, z);
        let mark = mark(&before, x[0], z[0], &a.state);
        notes.marks.push(mark);
        notes.numbers.push(match mark {
            0 => numbers::number(k, z[0]),
            _ => numbers::NONE,
        });
        seen.samples += 1;
        seen.blank += u64::from(mark == 1);
        seen.spilled += u64::from(mark == 2);
        seen.silent += u64::from(mark == 3);
        seen.off_scale += u64::from(mark == 4);
        seen.numbered[number(k) as usize] += u64::from(mark == 0);
        let size = z[0].re.abs().max(z[0].im.abs());
        seen.output_infinite += u64::from(size.is_infinite());
        seen.error_power_infinite += u64::from(size > 2e19);
        seen.switches += u64::from(before.mode() == EqMode::Cma && a.state.mode() != EqMode::Cma);
        if !matches!(mark, 1 | 2) {
            heard(&before, z[0], &a.state, seen);
        }
    }
    (a, notes)
}

/// What a sample that went through steps 4 to 7, with the output z, did.
fn heard(before: &State, z: C32, after: &State, seen: &mut Seen) {
    let (power, back) = (power(after), set_back(before, after));
    seen.power_infinite += u64::from(power.is_infinite());
    seen.weights_set_back += u64::from(back);
    seen.weights_flushed += u64::from(!back && fallen(before.weights(), after.weights()));
    let (r, d) = (before.oracle_record(), before.constellation().decide(z));
    let (re, im) = (z.re - d.re, z.im - d.im);
    seen.mse_flushed += u64::from(low(r.mse + MSE_ALPHA * (re * re + im * im - r.mse)));
    seen.freq_flushed += u64::from(low(r.freq + r.ki * (z.im * d.re - z.re * d.im)));
}

/// Whether a flush changes it.
fn low(x: f32) -> bool {
    x != 0.0 && x.abs() < 1e-30
}

/// Whether a part of a weight became 0.
fn fallen(before: &[C32], after: &[C32]) -> bool {
    let mut pairs = before.iter().zip(after);
    pairs.any(|(a, b)| a.re != 0.0 && b.re == 0.0 || a.im != 0.0 && b.im == 0.0)
}

fn is_finite(v: C32) -> bool {
    v.re.is_finite() && v.im.is_finite()
}

/// The mark of a sample with the output z, from the states before and after it. The sum takes the
/// forward window as shifted, the feedback window and the weights as they were; the forward window
/// is the same after the sample.
fn mark(before: &State, x: C32, z: C32, after: &State) -> u8 {
    if !is_finite(x) {
        return 1;
    }
    let forward = before.taps();
    let mut window = after.history()[..forward].to_vec();
    window.extend(&before.history()[forward..]);
    let y = Document01Dot
        .dot_complex(&window, before.weights())
        .expect("the lengths agree");
    if !is_finite(y) {
        2
    } else if power(after) == 0.0 {
        3
    } else if !is_finite(z) {
        4
    } else {
        0
    }
}

/// The power of the forward window.
fn power(s: &State) -> f32 {
    let forward = s.history()[..s.taps()].iter();
    forward.map(|h| h.re * h.re + h.im * h.im).sum()
}

/// Whether the weights became those of the start.
fn set_back(before: &State, after: &State) -> bool {
    let mut fresh = after.clone();
    fresh.reset();
    same(after.weights(), fresh.weights()) && !same(before.weights(), fresh.weights())
}

fn same(a: &[C32], b: &[C32]) -> bool {
    let mut pairs = a.iter().zip(b);
    a.len() == b.len() && pairs.all(|(x, y)| bits(x.re) == bits(y.re) && bits(x.im) == bits(y.im))
}

fn same_record(a: &OracleRecord, b: &OracleRecord) -> bool {
    let floats = |r: &OracleRecord| [r.kp, r.ki, r.mse, r.freq].map(bits);
    a.params == b.params
        && floats(a) == floats(b)
        && (a.mode, a.count, a.phase) == (b.mode, b.count, b.phase)
}

fn agree(a: &Answer, b: &Answer) -> bool {
    same(&a.output, &b.output)
        && same(a.state.weights(), b.state.weights())
        && same(a.state.history(), b.state.history())
        && same_record(&a.state.oracle_record(), &b.state.oracle_record())
}
