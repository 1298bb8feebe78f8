//! What whole calls are tried on: accepted records, weights, windows and samples, seeded.

use crate::inputs::{Random, around, around_f64, few_edges, power_of_two};
use crate::kernels::equalize::{EqConstellation, EqMode, EqParams, EqualizeState, OracleRecord};
use crate::types::C32;

pub const CONSTELLATIONS: [EqConstellation; 5] = [
    EqConstellation::Bpsk,
    EqConstellation::Qpsk,
    EqConstellation::Psk8,
    EqConstellation::Qam16,
    EqConstellation::Qam64,
];

/// What an equalizer holds, and the samples of two calls.
#[derive(Clone)]
pub struct Case {
    pub record: OracleRecord,
    pub weights: Vec<C32>,
    pub window: Vec<C32>,
    pub blocks: [usize; 2],
    pub input: Vec<C32>,
}

impl Case {
    /// The same, in two calls of other lengths.
    pub fn with_blocks(&self, blocks: [usize; 2]) -> Case {
        Case {
            blocks,
            ..self.clone()
        }
    }

    /// The same in Cma, with `left` samples to the switch of mode.
    pub fn switching_after(&self, left: u32) -> Case {
        let mut c = self.with_blocks([self.input.len(), 0]);
        c.record.params.cma_symbols = 1000;
        c.record.mode = EqMode::Cma;
        c.record.count = 1000 - left;
        c
    }
}

/// An accepted case with `length` samples, those of as many cases as it takes.
pub fn stream(r: &mut Random, length: usize) -> Case {
    let mut c = case(r, false);
    while c.input.len() < length {
        c.input.extend(case(r, false).input);
    }
    c.input.truncate(length);
    c.with_blocks([length, 0])
}

/// An accepted case.
pub fn case(r: &mut Random, long: bool) -> Case {
    match r.below(32) {
        0 | 1 => return still(r),
        31 => return brink(r),
        _ => {}
    }
    let (forward, feedback) = sizes(r);
    let blocks = blocks(r, long);
    let length = blocks[0] + blocks[1];
    let params = params(r, feedback, length as u32);
    let style = style(r);
    let taps = forward + feedback;
    Case {
        record: record(r, params, length as u32),
        weights: weights(r, forward, taps),
        window: window(r, style, taps),
        blocks,
        input: samples(r, params.constellation, style, length, taps),
    }
}

/// A case whose weights are about to overflow: they are near the largest number, and the errors
/// as large. The sum is finite where its terms cancel.
fn brink(r: &mut Random) -> Case {
    let feedback = r.below(2) as usize;
    let blocks = [1 + r.below(4) as usize, r.below(4) as usize];
    let params = EqParams {
        mu_dd: r.pick(&[0.05, 0.2, 0.5, 1.0]),
        cma_symbols: 0,
        ..params(r, feedback, 0)
    };
    let near = |r: &mut Random| C32::new(r.within(f32::MAX), r.pick(&[0.0, f32::MAX, -f32::MAX]));
    let small = |r: &mut Random| C32::new(r.within(0.3), r.within(0.3));
    Case {
        record: record(r, params, 0),
        weights: (0..3 + feedback).map(|_| near(r)).collect(),
        window: (0..3 + feedback).map(|_| small(r)).collect(),
        blocks,
        input: (0..blocks[0] + blocks[1]).map(|_| small(r)).collect(),
    }
}

/// A case that stands still: the phase is a quarter turn or none, and the samples are points, but
/// for parts too small to count. `mse`, the frequency and the weights are about to be flushed.
/// Many have one sample, so that its outcome is seen, or 64, so that most go in runs.
fn still(r: &mut Random) -> Case {
    let (forward, feedback) = sizes(r);
    let some = blocks(r, false);
    let blocks = r.pick(&[some, [1, 0], [64, 0]]);
    let length = blocks[0] + blocks[1];
    let any = r.pick(&CONSTELLATIONS);
    let k = r.pick(&[EqConstellation::Bpsk, any]);
    let params = EqParams {
        constellation: k,
        ..params(r, feedback, length as u32)
    };
    let quarter = r.pick(&[0, 0, 0, 1, 2, 3]);
    let small = power_of_two(-110 + r.below(40) as i32);
    let off = r.pick(&[0.0, small]);
    let sample = |r: &mut Random| {
        let d = k.decide(C32::new(r.within(1.2), r.within(1.2)));
        let x = C32::new(d.re + r.within(off), d.im + r.within(off));
        match quarter {
            0 => x,
            1 => C32::new(-x.im, x.re),
            2 => C32::new(-x.re, -x.im),
            _ => C32::new(x.im, -x.re),
        }
    };
    let taps = forward + feedback;
    let part = |r: &mut Random| if r.below(2) == 0 { 0.0 } else { low(r) };
    let real = |r: &mut Random, i| if i == forward / 2 { 1.0 } else { part(r) };
    Case {
        record: OracleRecord {
            mse: low(r),
            phase: quarter << 30,
            freq: part(r),
            ..record(r, params, length as u32)
        },
        weights: (0..taps).map(|i| C32::new(real(r, i), part(r))).collect(),
        window: (0..taps).map(|_| sample(r)).collect(),
        blocks,
        input: (0..length).map(|_| sample(r)).collect(),
    }
}

/// A number of either sign just above 1e-30, where the flush begins. Of `mse`, what is below
/// 1.010101e-30 is flushed by the next sample without an error.
fn low(r: &mut Random) -> f32 {
    let size = match r.below(4) {
        0 => r.pick(&[1e-30, around(1e-30)[2]]),
        1 | 2 => r.pick(&around(1.010_101e-30)),
        _ => 1e-30 + r.within(2.5e-31).abs(),
    };
    r.pick(&[size, size, -size])
}

/// Forward and feedback taps: mostly few.
pub fn sizes(r: &mut Random) -> (usize, usize) {
    let (forward, feedback) = match r.below(32) {
        0 => r.pick(&[(63, 0), (63, 63), (3, 63), (31, 15)]),
        1 => (3 + 2 * r.below(31), r.below(64)),
        2 => (3 + 2 * r.below(31), 0),
        3..7 => (3 + 2 * r.below(14), r.below(16)),
        7..16 => (3 + 2 * r.below(7), 1 + r.below(5)),
        16..24 => (3 + 2 * r.below(3), r.below(3)),
        _ => (3 + 2 * r.below(7), 0),
    };
    (forward as usize, feedback as usize)
}

/// The lengths of the two calls. The second is often of no samples.
fn blocks(r: &mut Random, long: bool) -> [usize; 2] {
    let length = match r.below(32) {
        0 => r.pick(&[63, 64, 65, 128, 129, 192]),
        1 => r.below(201),
        2 => 0,
        3..6 => 1,
        6..8 => 2,
        8 if long => r.pick(&[255, 1024, 4095, 4096]),
        9..11 if long => r.below(4097),
        _ => r.below(25),
    };
    let second = match r.below(3) {
        0 => r.below(length + 1),
        _ => 0,
    };
    [(length - second) as usize, second as usize]
}

/// Step sizes, bandwidth and the number of blind symbols, all as the rules want them.
pub fn params(r: &mut Random, feedback_taps: usize, length: u32) -> EqParams {
    EqParams {
        constellation: r.pick(&CONSTELLATIONS),
        feedback_taps,
        mu_cma: step_size(r, 0.05),
        mu_dd: step_size(r, 0.02),
        cma_symbols: match r.below(8) {
            0 => 0,
            1 => 1,
            2 => u32::MAX,
            3 => u32::MAX - 1,
            4 => 1000 + r.below(1 << 20) as u32,
            _ => 1 + r.below(u64::from(length) + 2) as u32,
        },
        phase_bw: bandwidth(r),
    }
}

pub fn step_size(r: &mut Random, default: f32) -> f32 {
    match r.below(8) {
        0 => 0.000_01,
        1 => 1.0,
        2 => around(0.000_01)[2],
        3 => around(1.0)[0],
        4 | 5 => default,
        _ => 0.000_01 + r.within(0.5).abs(),
    }
}

pub fn bandwidth(r: &mut Random) -> f64 {
    match r.below(8) {
        0 => 0.0,
        1 => -0.0,
        2 => r.pick(&[0.0001, around_f64(0.0001)[2]]),
        3 => r.pick(&[0.2, around_f64(0.2)[0]]),
        4 => 0.02,
        _ => 0.0001 + 0.1999 * (r.below(1 << 40) as f64 / (1u64 << 40) as f64),
    }
}

/// The record that `EqualizeState::new` makes of the settings: for the gains.
pub fn fresh(params: EqParams) -> OracleRecord {
    let taps = vec![C32::default(); 3 + params.feedback_taps];
    EqualizeState::new(taps.clone(), taps, params)
        .expect("the settings are accepted")
        .oracle_record()
}

/// A record with these settings that meets the rules. The switch of mode falls at any place of
/// the samples, or outside.
fn record(r: &mut Random, params: EqParams, length: u32) -> OracleRecord {
    let total = params.cma_symbols;
    let (mode, count) = match total {
        0 => (EqMode::Decision, 0),
        u32::MAX => (EqMode::Cma, 0),
        _ if r.below(4) == 0 => (EqMode::Decision, total),
        _ if r.below(8) == 0 => (EqMode::Cma, r.pick(&[0, total - 1])),
        _ => {
            let left = 1 + r.below(u64::from(length) + 2) as u32;
            (EqMode::Cma, total.saturating_sub(left))
        }
    };
    OracleRecord {
        mode,
        count,
        mse: mean_error(r),
        phase: phase(r),
        freq: frequency(r),
        ..fresh(params)
    }
}

pub fn mean_error(r: &mut Random) -> f32 {
    match r.below(12) {
        0 => 0.0,
        1 => r.pick(&[f32::NAN, f32::INFINITY, f32::NEG_INFINITY, -0.0, f32::MAX]),
        2 => r.pick(&[
            f32::from_bits(1),
            f32::from_bits(0x807f_ffff),
            1e-30,
            -1e-30,
            around(1e-30)[0],
            around(1e-30)[2],
        ]),
        3 => r.f32(),
        4 => -r.within(2.0).abs(),
        5..8 => 1.0,
        _ => r.within(1.0).abs(),
    }
}

pub fn phase(r: &mut Random) -> u32 {
    let any = r.below(4096) as u32;
    let entry = r.pick(&[any, any, any & 0xc00, 1]) << 20;
    match r.below(8) {
        0 => 0,
        1 => r.pick(&[1, u32::MAX, 1 << 30, 1 << 31, 3 << 30]),
        2 => entry,
        3 => entry.wrapping_add(1),
        4 => entry.wrapping_sub(1),
        _ => (r.word() >> 24) as u32,
    }
}

pub fn frequency(r: &mut Random) -> f32 {
    let x = match r.below(8) {
        0..3 => 0.0,
        3 => r.pick(&[1e-30, around(1e-30)[2]]) * r.pick(&[1.0, -1.0]),
        4 => r.pick(&[0.125, around(0.125)[0]]) * r.pick(&[1.0, -1.0]),
        5 => r.within(1e-4),
        _ => r.within(0.125),
    };
    if x.abs() < 1e-30 { 0.0 } else { x }
}

/// Weights that rule R3 takes.
fn weights(r: &mut Random, forward: usize, taps: usize) -> Vec<C32> {
    let size = match r.below(16) {
        0 => 1e-30,
        1 => 1e-15,
        2 => 1e15,
        3 => 1e30,
        4 => f32::MAX,
        5..8 => 0.2,
        _ => 1.0,
    };
    let part = |r: &mut Random| -> f32 {
        let x = match r.below(16) {
            0 => 0.0,
            1 => r.pick(&[1e-30, -1e-30, around(1e-30)[2]]),
            2 => r.pick(&[size, -size]),
            _ if size == 1e-30 => r.within(4e-30),
            _ if size > 1e10 => size * (1.0 - r.within(0.5).abs()) * r.pick(&[1.0, -1.0]),
            _ => r.within(size),
        };
        if x.abs() < 1e-30 { 0.0 } else { x }
    };
    let kind = r.below(8);
    (0..taps)
        .map(|i| match kind {
            0 => C32::default(),
            1..5 if i == forward / 2 => C32::new(1.0, 0.0),
            1 | 2 => C32::default(),
            3 | 4 => C32::new(0.1 * part(r), 0.1 * part(r)),
            _ => C32::new(part(r), part(r)),
        })
        .map(|w| C32::new(held(w.re), held(w.im)))
        .collect()
}

/// What R3 takes for a weight part.
fn held(x: f32) -> f32 {
    if x.abs() < 1e-30 { 0.0 } else { x }
}

/// What the samples of a case are like.
#[derive(Clone, Copy, PartialEq)]
pub enum Style {
    /// Points with noise.
    Heard,
    /// Points, and among them samples of every other kind.
    Mixed,
    /// Points, and runs of blanks and of silence.
    Faded,
    /// Large samples: the sum, the turned sum or the error's power overflow.
    Huge,
    /// Samples whose squares underflow.
    Faint,
    /// Any pattern.
    Any,
}

fn style(r: &mut Random) -> Style {
    match r.below(16) {
        0..6 => Style::Heard,
        6..10 => Style::Mixed,
        10..12 => Style::Faded,
        12 | 13 => Style::Huge,
        14 => Style::Faint,
        _ => Style::Any,
    }
}

/// A number of a size from 2^from on, over `span` powers of two.
fn sized(r: &mut Random, from: i32, span: u64) -> f32 {
    let size = power_of_two(from + r.below(span) as i32);
    r.within(size)
}

fn huge(r: &mut Random) -> f32 {
    match r.below(6) {
        0 => r.pick(&[f32::MAX, -f32::MAX, 3e38, -3e38, 0.0]),
        1 => r.within(f32::MAX),
        _ => sized(r, 50, 77),
    }
}

fn faint(r: &mut Random) -> f32 {
    match r.below(5) {
        0 => r.pick(&[0.0, -0.0, 1e-30, -1e-30]),
        1 => f32::from_bits(r.digits(23) as u32),
        2 => -f32::from_bits(r.digits(23) as u32),
        _ => sized(r, -126, 60),
    }
}

fn point(r: &mut Random, k: EqConstellation) -> C32 {
    let d = k.decide(C32::new(r.within(1.2), r.within(1.2)));
    let noise = r.pick(&[0.0, 0.05, 0.3]);
    C32::new(d.re + r.within(noise), d.im + r.within(noise))
}

fn blank(r: &mut Random) -> C32 {
    let bad = r.pick(&[
        0x7fc0_0000,
        0xffc0_0000,
        0x7f80_0001,
        0xff80_0001,
        0x7fff_ffff,
        0xffff_ffff,
        0x7fd5_5555,
        0x7f80_0000,
        0xff80_0000,
    ]);
    let (bad, other) = (f32::from_bits(bad), r.f32());
    match r.below(3) {
        0 => C32::new(bad, bad),
        1 => C32::new(bad, other),
        _ => C32::new(other, bad),
    }
}

fn special(r: &mut Random) -> C32 {
    match r.below(6) {
        0 | 1 => blank(r),
        2 => C32::new(huge(r), huge(r)),
        3 => C32::new(faint(r), faint(r)),
        4 => r.pick(&[
            C32::new(0.0, 0.0),
            C32::new(-0.0, 0.0),
            C32::new(-0.0, -0.0),
        ]),
        _ => C32::new(r.pick(&few_edges()), r.pick(&few_edges())),
    }
}

fn samples(
    r: &mut Random,
    k: EqConstellation,
    style: Style,
    length: usize,
    taps: usize,
) -> Vec<C32> {
    let mut run = 0;
    let mut silent = false;
    let often = 2 + r.below(8);
    (0..length)
        .map(|_| match style {
            Style::Heard => point(r, k),
            Style::Mixed if r.below(often) == 0 => special(r),
            Style::Mixed => point(r, k),
            Style::Faded => {
                if run == 0 && r.below(6) == 0 {
                    run = 1 + r.below(taps as u64 + 4);
                    silent = r.below(2) == 0;
                }
                match (run, silent) {
                    (0, _) => point(r, k),
                    (_, true) => {
                        run -= 1;
                        C32::new(0.0, r.pick(&[0.0, -0.0]))
                    }
                    (_, false) => {
                        run -= 1;
                        blank(r)
                    }
                }
            }
            Style::Huge if r.below(often) == 0 => point(r, k),
            Style::Huge => C32::new(huge(r), huge(r)),
            Style::Faint => C32::new(faint(r), faint(r)),
            Style::Any => C32::new(r.f32(), r.f32()),
        })
        .collect()
}

/// Window parts are finite.
fn window(r: &mut Random, style: Style, taps: usize) -> Vec<C32> {
    let kind = r.below(8);
    let part = |r: &mut Random| match kind {
        0 | 1 => 0.0,
        2 => r.pick(&[0.0, -0.0]),
        3 if style == Style::Huge => huge(r),
        4 if style == Style::Huge => huge(r),
        3 | 4 if style == Style::Faint => faint(r),
        3 => match r.below(8) {
            0 => huge(r),
            1 => faint(r),
            _ => r.within(1.5),
        },
        4 if r.below(8) == 0 => r.finite(),
        _ => r.within(1.5),
    };
    (0..taps).map(|_| C32::new(part(r), part(r))).collect()
}
