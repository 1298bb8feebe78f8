//! Rattle against the original, in one process, over the same streams: a table in Markdown.

use std::hint::black_box;
use std::io::{self, Write};
use std::time::{Duration, Instant};

use equalizer::{Constellation, Equalizer, Mode, Settings};

use crate::inputs::Random;
use crate::kernels::equalize::{
    EqConstellation, EqMode, EqParams, Equalize, EqualizeState, equalize_with,
};
use crate::line::bits;
use crate::numbers::number;
use crate::types::C32;
use crate::{Fallback, Reference};

/// Samples of a stream.
const STREAM: usize = 4096;

/// The least and the greatest number of repeats of a row.
const REPEATS: (u32, u32) = (20, 2000);

#[derive(Clone, Copy)]
struct Row {
    constellation: EqConstellation,
    forward: usize,
    feedback: usize,
    block: usize,
}

fn rows() -> Vec<Row> {
    use EqConstellation::{Bpsk, Psk8, Qam16, Qam64, Qpsk};
    let row = |block| {
        move |(constellation, forward, feedback)| Row {
            constellation,
            forward,
            feedback,
            block,
        }
    };
    let long = [
        (Qpsk, 3, 0),
        (Qpsk, 11, 0),
        (Qpsk, 31, 0),
        (Qpsk, 63, 0),
        (Bpsk, 11, 0),
        (Psk8, 11, 0),
        (Qam16, 11, 0),
        (Qam64, 11, 0),
        (Qpsk, 15, 5),
        (Qpsk, 31, 15),
        (Qpsk, 63, 63),
    ];
    let short = [
        (Qpsk, 3, 0),
        (Qpsk, 11, 0),
        (Qpsk, 31, 0),
        (Qpsk, 63, 0),
        (Qpsk, 15, 5),
        (Qpsk, 31, 15),
    ];
    let single = [(Qpsk, 11, 0), (Qpsk, 63, 0), (Qpsk, 15, 5), (Qpsk, 31, 15)];
    let brief = [(Qpsk, 3, 0), (Qpsk, 11, 0), (Qpsk, 31, 0), (Qpsk, 15, 5)];
    let long = long.into_iter().map(row(4096));
    long.chain(short.into_iter().map(row(64)))
        .chain(brief.into_iter().map(row(16)))
        .chain(brief.into_iter().map(row(8)))
        .chain(single.into_iter().map(row(1)))
        .collect()
}

/// The four ways of running a stream.
const WAYS: usize = 4;

/// Writes the table. Whether all ways agreed to the bit in every row.
pub fn write(out: &mut impl Write, seconds: u64) -> io::Result<bool> {
    writeln!(
        out,
        "| constellation | taps | block | Rattle `eq_reference` | Rust `Reference` | ratio | Rattle `equalize` | Rust `equalize_with` | ratio | same bits |"
    )?;
    writeln!(out, "|---|---|---|---|---|---|---|---|---|---|")?;
    let mut all = true;
    for row in rows() {
        let (times, same) = measure(row, Duration::from_secs(seconds));
        all &= same;
        let ns = times.map(|t| t.as_nanos() as f64 / STREAM as f64);
        let [plain, reference, call, quick] = ns;
        let taps = match row.feedback {
            0 => format!("{}", row.forward),
            m => format!("{}+{m}", row.forward),
        };
        writeln!(
            out,
            "| {:?} | {taps} | {} | {plain:.1} | {reference:.1} | {:.2} | {call:.1} | {quick:.1} | {:.2} | {} |",
            row.constellation,
            row.block,
            plain / reference,
            call / quick,
            if same { "yes" } else { "NO" },
        )?;
        out.flush()?;
    }
    Ok(all)
}

/// The least time of each way over many repeats, the ways in turn; and whether all agree.
fn measure(row: Row, budget: Duration) -> ([Duration; WAYS], bool) {
    let input = stream(&mut Random::new(1), row.constellation);
    let flat: Vec<f32> = input.iter().flat_map(|x| [x.re, x.im]).collect();
    let (mut plain, mut call) = (Rattle::new(row), Rattle::new(row));
    let (mut reference, mut quick) = (Original::new(row), Original::new(row));
    let mut least = [Duration::MAX; WAYS];
    let began = Instant::now();
    let mut repeats = 0;
    while repeats < REPEATS.0 || (began.elapsed() < budget && repeats < REPEATS.1) {
        let took = [
            plain.run(&flat, row.block, Equalizer::reference),
            reference.run(&input, row.block, |s, x, y| Reference.equalize(s, x, y)),
            call.run(&flat, row.block, Equalizer::equalize),
            quick.run(&input, row.block, |s, x, y| {
                equalize_with(&Fallback, s, x, y)
            }),
        ];
        for (l, t) in least.iter_mut().zip(took) {
            *l = t.min(*l);
        }
        repeats += 1;
    }
    let marked = |r: &Rattle| r.marks.iter().all(|&m| m == equalizer::HEARD);
    let same = agree(&plain, &quick)
        && agree(&call, &quick)
        && agree(&plain, &reference)
        && marked(&plain)
        && marked(&call)
        && numbered(&plain, &reference)
        && numbered(&call, &quick);
    (least, same)
}

type Served = Result<(), equalizer::Error>;

struct Rattle {
    equalizer: Equalizer,
    output: Vec<f32>,
    marks: Vec<u8>,
    numbers: Vec<u8>,
}

impl Rattle {
    fn new(row: Row) -> Self {
        let d = EqParams::default();
        let settings = Settings {
            constellation: match row.constellation {
                EqConstellation::Bpsk => Constellation::Bpsk,
                EqConstellation::Qpsk => Constellation::Qpsk,
                EqConstellation::Psk8 => Constellation::Psk8,
                EqConstellation::Qam16 => Constellation::Qam16,
                EqConstellation::Qam64 => Constellation::Qam64,
            },
            feedback_taps: row.feedback,
            mu_cma: d.mu_cma,
            mu_dd: d.mu_dd,
            cma_symbols: d.cma_symbols,
            phase_bw: d.phase_bw,
        };
        Rattle {
            equalizer: Equalizer::new(row.forward, settings).expect("the settings are in range"),
            output: vec![0.0; 2 * STREAM],
            marks: vec![9; STREAM],
            numbers: vec![99; STREAM],
        }
    }

    /// The stream from the start, in blocks.
    fn run(
        &mut self,
        input: &[f32],
        block: usize,
        call: impl Fn(&mut Equalizer, &[f32], &mut [f32], &mut [u8], &mut [u8]) -> Served,
    ) -> Duration {
        self.equalizer.reset().expect("the record is accepted");
        let began = Instant::now();
        let blocks = black_box(input)
            .chunks(2 * block)
            .zip(self.output.chunks_mut(2 * block));
        let bytes = self
            .marks
            .chunks_mut(block)
            .zip(self.numbers.chunks_mut(block));
        for ((x, y), (m, n)) in blocks.zip(bytes) {
            call(&mut self.equalizer, x, y, m, n).expect("the lengths agree");
        }
        let took = began.elapsed();
        black_box((&self.output, &self.marks, &self.numbers));
        took
    }
}

type State = EqualizeState<Vec<C32>, Vec<C32>>;

struct Original {
    state: State,
    output: Vec<C32>,
}

impl Original {
    fn new(row: Row) -> Self {
        let params = EqParams {
            constellation: row.constellation,
            feedback_taps: row.feedback,
            ..EqParams::default()
        };
        let zeros = vec![C32::new(0.0, 0.0); row.forward + row.feedback];
        Original {
            state: State::new(zeros.clone(), zeros, params).expect("the settings are in range"),
            output: vec![C32::new(0.0, 0.0); STREAM],
        }
    }

    fn run(
        &mut self,
        input: &[C32],
        block: usize,
        call: impl Fn(&mut State, &[C32], &mut [C32]) -> crate::error::Result<()>,
    ) -> Duration {
        self.state.reset();
        let began = Instant::now();
        for (x, y) in black_box(input)
            .chunks(block)
            .zip(self.output.chunks_mut(block))
        {
            call(&mut self.state, x, y).expect("the lengths agree");
        }
        let took = began.elapsed();
        black_box(&self.output);
        took
    }
}

/// Outputs, weights, window and record, to the bit.
fn agree(a: &Rattle, b: &Original) -> bool {
    let (r, o) = (a.equalizer.record(), b.state.oracle_record());
    same(&a.output, &b.output)
        && same(a.equalizer.weights(), b.state.weights())
        && same(a.equalizer.window(), b.state.history())
        && [r.kp, r.ki, r.mse, r.freq].map(bits) == [o.kp, o.ki, o.mse, o.freq].map(bits)
        && (r.mode == Mode::Decision, r.count, r.phase)
            == (o.mode == EqMode::Decision, o.count, o.phase)
}

fn same(a: &[f32], b: &[C32]) -> bool {
    let b = b.iter().flat_map(|y| [y.re, y.im]);
    a.len() == b.clone().count() && a.iter().zip(b).all(|(&x, y)| bits(x) == bits(y))
}

/// Whether the numbers are those of the Rust's symbols.
fn numbered(a: &Rattle, b: &Original) -> bool {
    let k = b.state.constellation();
    let mut pairs = a.numbers.iter().zip(&b.output);
    pairs.all(|(&n, &z)| n == number(k, z))
}

/// Points at random, through three echoes and a slow turn, with noise.
fn stream(r: &mut Random, constellation: EqConstellation) -> Vec<C32> {
    let mut sent = [C32::new(0.0, 0.0); 4];
    let echoes = [
        C32::new(1.0, 0.0),
        C32::new(0.25, -0.15),
        C32::new(-0.1, 0.05),
        C32::new(0.03, 0.04),
    ];
    let mut heard = Vec::new();
    for n in 0..STREAM {
        sent.rotate_right(1);
        sent[0] = point(r, constellation);
        let (mut re, mut im) = (0.0, 0.0);
        for (s, e) in sent.iter().zip(echoes) {
            re += s.re * e.re - s.im * e.im;
            im += s.re * e.im + s.im * e.re;
        }
        let (sin, cos) = (n as f32 * 0.0003).sin_cos();
        let (x, y) = (re * cos - im * sin, re * sin + im * cos);
        heard.push(C32::new(x + r.within(0.02), y + r.within(0.02)));
    }
    heard
}

/// A point of mean power 1.
fn point(r: &mut Random, constellation: EqConstellation) -> C32 {
    let mut level = |m: u64, scale: f32| (2 * r.below(m) + 1) as f32 * scale - m as f32 * scale;
    match constellation {
        EqConstellation::Bpsk => C32::new(level(2, 1.0), 0.0),
        EqConstellation::Qam16 => C32::new(level(4, 0.1f32.sqrt()), level(4, 0.1f32.sqrt())),
        EqConstellation::Qam64 => C32::new(
            level(8, (1.0f32 / 42.0).sqrt()),
            level(8, (1.0f32 / 42.0).sqrt()),
        ),
        EqConstellation::Psk8 => {
            let turn = (2 * r.below(8) + 1) as f32 * std::f32::consts::PI / 8.0;
            C32::new(turn.cos(), turn.sin())
        }
        EqConstellation::Qpsk => C32::new(level(2, 0.5f32.sqrt()), level(2, 0.5f32.sqrt())),
    }
}
