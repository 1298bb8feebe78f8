//! The other operations: new, reset, set_mu_cma, set_mu_dd, set_frequency. A line for each case:
//! what the operation is handed, then what the Rust gives and leaves.

use std::io::{self, Write};

use crate::cases::{self, CONSTELLATIONS};
use crate::error::Error;
use crate::inputs::{Random, around, around_f64, edges};
use crate::kernels::equalize::{EqMode, EqParams, EqualizeState, OracleRecord};
use crate::line::Line;
use crate::types::C32;

/// The operations, by their numbers.
const NEW: u32 = 0;
const RESET: u32 = 1;
const SET_MU_CMA: u32 = 2;
const SET_MU_DD: u32 = 3;
const SET_FREQUENCY: u32 = 4;

struct Case {
    operation: u32,
    record: OracleRecord,
    /// The step size or the frequency.
    argument: f32,
    weights: Vec<C32>,
    window: Vec<C32>,
}

/// What an operation gives and leaves.
struct Answer {
    refusal: [u32; 3],
    record: OracleRecord,
    weights: Vec<C32>,
    window: Vec<C32>,
}

pub fn write(out: &mut impl Write, seed: u64, count: u64) -> io::Result<()> {
    let mut r = Random::new(seed);
    let mut refused = [0u64; 8];
    for _ in 0..count {
        let case = match r.below(8) {
            0..3 => new(&mut r),
            3 => reset(&mut r),
            4 => setter(&mut r, SET_MU_CMA),
            5 => setter(&mut r, SET_MU_DD),
            _ => setter(&mut r, SET_FREQUENCY),
        };
        let answer = answer(&case);
        refused[answer.refusal[0] as usize] += 1;
        line(&case, &answer).write(out)?;
    }
    out.flush()?;
    eprintln!("others: {count} lines, served and refused by number {refused:?}");
    Ok(())
}

fn line(case: &Case, answer: &Answer) -> Line {
    let mut line = Line::default();
    line.record(&case.record);
    line.whole(case.operation);
    line.given(case.argument);
    line.count(case.weights.len());
    line.count(case.window.len());
    line.given_all(&case.weights);
    line.given_all(&case.window);
    for n in answer.refusal {
        line.whole(n);
    }
    line.record(&answer.record);
    line.result_all(&answer.weights);
    line.result_all(&answer.window);
    line
}

// ---- the cases ----

/// Any pattern, NaNs among them, or an edge.
fn some_float(r: &mut Random) -> f32 {
    match r.below(4) {
        0 => r.pick(&edges()),
        _ => r.f32(),
    }
}

fn some_whole(r: &mut Random) -> u32 {
    match r.below(4) {
        0 => r.pick(&[0, 1, u32::MAX - 1, u32::MAX]),
        _ => (r.word() >> 24) as u32,
    }
}

fn any(r: &mut Random, taps: usize) -> Vec<C32> {
    let value = |r: &mut Random| C32::new(some_float(r), some_float(r));
    (0..taps).map(|_| value(r)).collect()
}

/// The settings of a record whose other fields are 0: what `new` is handed.
fn settings(params: EqParams) -> OracleRecord {
    OracleRecord {
        params,
        kp: 0.0,
        ki: 0.0,
        mode: EqMode::Cma,
        count: 0,
        mse: 0.0,
        phase: 0,
        freq: 0.0,
    }
}

/// A float that may be outside the step sizes.
fn some_step_size(r: &mut Random) -> f32 {
    match r.below(4) {
        0 => r.pick(&edges()),
        1 => r.f32(),
        2 => r.pick(&around(0.000_01)),
        _ => r.pick(&around(1.0)),
    }
}

fn some_bandwidth(r: &mut Random) -> f64 {
    let near = r.pick(&[0.0001, 0.2, 0.0, 0.3, -0.0001, -0.2]);
    match r.below(4) {
        0 => r.f64(),
        1 => f64::from(r.pick(&edges())),
        _ => r.pick(&around_f64(near)),
    }
}

fn some_size(r: &mut Random) -> (usize, usize) {
    let feedback = r.pick(&[0, 0, 1, 2, 5, 63, 64, 65, 1000, u64::from(u32::MAX)]);
    let forward = r.pick(&[0, 1, 2, 3, 4, 5, 6, 7, 62, 63, 64, 65]);
    (forward as usize, feedback as usize)
}

/// Each rule is broken now and then; some cases break several.
fn new(r: &mut Random) -> Case {
    let broken = |r: &mut Random| r.below(8) == 0;
    let (mut forward, mut feedback) = (3 + 2 * r.below(3) as usize, r.below(4) as usize);
    if r.below(8) == 0 {
        (forward, feedback) = cases::sizes(r);
    }
    if r.below(4) == 0 {
        (forward, feedback) = some_size(r);
    }
    let taps = match r.below(16) {
        0 => r.below(feedback.min(20) as u64 + 1) as usize,
        _ if forward + feedback > 128 => forward,
        _ => forward + feedback,
    };
    let window = match r.below(8) {
        0 => r.below(12) as usize,
        1 => (taps + 1).min(128),
        _ => taps,
    };
    let mut params = cases::params(r, feedback, 20);
    if broken(r) {
        params.mu_cma = some_step_size(r);
    }
    if broken(r) {
        params.mu_dd = some_step_size(r);
    }
    if r.below(4) == 0 {
        params.phase_bw = some_bandwidth(r);
    }
    Case {
        operation: NEW,
        record: settings(params),
        argument: 0.0,
        weights: any(r, taps),
        window: any(r, window),
    }
}

/// A record that meets R1 and R2; its running fields are any.
fn any_record(r: &mut Random, feedback: usize) -> OracleRecord {
    let params = cases::params(r, feedback, 20);
    OracleRecord {
        mode: r.pick(&[EqMode::Cma, EqMode::Decision]),
        count: some_whole(r),
        mse: cases::mean_error(r),
        phase: cases::phase(r),
        freq: some_frequency(r),
        ..cases::fresh(params)
    }
}

fn reset(r: &mut Random) -> Case {
    let (forward, feedback) = match r.below(4) {
        0 => cases::sizes(r),
        _ => (3 + 2 * r.below(3) as usize, r.below(4) as usize),
    };
    Case {
        operation: RESET,
        record: any_record(r, feedback),
        argument: 0.0,
        weights: any(r, forward + feedback),
        window: any(r, forward + feedback),
    }
}

/// The setters take any record.
fn setter(r: &mut Random, operation: u32) -> Case {
    let mut record = any_record(r, 0);
    if r.below(4) == 0 {
        record.params = EqParams {
            constellation: r.pick(&CONSTELLATIONS),
            feedback_taps: some_whole(r) as usize,
            mu_cma: some_step_size(r),
            mu_dd: some_step_size(r),
            cma_symbols: some_whole(r),
            phase_bw: some_bandwidth(r),
        };
        record.kp = some_float(r);
        record.ki = some_float(r);
    }
    let argument = match operation {
        SET_FREQUENCY => some_frequency(r),
        _ if r.below(2) == 0 => cases::step_size(r, 0.05),
        _ => some_step_size(r),
    };
    Case {
        operation,
        record,
        argument,
        weights: Vec::new(),
        window: Vec::new(),
    }
}

fn some_frequency(r: &mut Random) -> f32 {
    let near = r.pick(&[1e-30, 0.125]);
    match r.below(4) {
        0 => r.pick(&edges()),
        1 => r.f32(),
        2 => r.pick(&around(near)) * r.pick(&[1.0, -1.0]),
        _ => r.within(0.2),
    }
}

// ---- the answers ----

fn answer(case: &Case) -> Answer {
    let mut weights = case.weights.clone();
    let mut window = case.window.clone();
    let (record, refusal) = if case.operation == NEW {
        match EqualizeState::new(&mut weights[..], &mut window[..], case.record.params) {
            Ok(s) => (s.oracle_record(), [0; 3]),
            Err(e) => (case.record, refusal(&e)),
        }
    } else {
        let mut s = EqualizeState::oracle_from(&mut weights[..], &mut window[..], case.record);
        let done = match case.operation {
            SET_MU_CMA => s.set_mu_cma(case.argument),
            SET_MU_DD => s.set_mu_dd(case.argument),
            SET_FREQUENCY => {
                s.set_frequency(case.argument);
                Ok(())
            }
            _ => {
                s.reset();
                Ok(())
            }
        };
        (
            s.oracle_record(),
            done.map_or_else(|e| refusal(&e), |()| [0; 3]),
        )
    };
    Answer {
        refusal,
        record,
        weights,
        window,
    }
}

/// The number of document 01 for an error of the Rust, and the two lengths.
fn refusal(e: &Error) -> [u32; 3] {
    let (number, expected, got) = match e {
        Error::LengthMismatch { expected, got } => (4, *expected, *got),
        Error::InvalidParameter(why) => {
            let words = [
                ("feedback taps", 2),
                ("forward taps", 3),
                ("cma step size", 5),
                ("decision step size", 6),
                ("bandwidth", 7),
            ];
            let found = words.iter().find(|(word, _)| why.contains(word));
            (found.expect("a known refusal").1, 0, 0)
        }
        Error::Internal(why) => panic!("{why}"),
    };
    [number, expected as u32, got as u32]
}
