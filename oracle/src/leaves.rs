//! The leaf vectors: one text file a leaf, a line for each case, the patterns of the inputs and
//! then of the outputs. Every output comes from the original Rust.

use std::collections::HashSet;
use std::fs::{self, File};
use std::io::{self, BufWriter, Write};
use std::path::Path;

use crate::cases::CONSTELLATIONS;
use crate::fallback::costas::{integrate, phase_step_f32};
use crate::fallback::dot::dot_complex_c32;
use crate::fallback::mix::interp_f32_pair;
use crate::inputs::{Random, around, around_f64, both_signs, edges, few_edges, power_of_two};
use crate::kernels::constellation::Qam;
use crate::kernels::costas::{derotate, loop_gains, octant_point};
use crate::kernels::dot::DotComplex;
use crate::kernels::equalize::{EqConstellation, PHASE_DAMPING, clip, rotate};
use crate::line::bits;
use crate::num::flush_denormal;
use crate::numbers;
use crate::reference::dot::Document01Dot;
use crate::types::C32;

/// The file of one leaf.
struct Leaf {
    name: &'static str,
    out: BufWriter<File>,
    line: String,
    written: HashSet<String>,
}

impl Leaf {
    fn new(folder: &Path, name: &'static str) -> io::Result<Leaf> {
        let out = BufWriter::new(File::create(folder.join(format!("{name}.txt")))?);
        Ok(Leaf {
            name,
            out,
            line: String::new(),
            written: HashSet::new(),
        })
    }

    fn add(&mut self, word: String) -> &mut Self {
        if !self.line.is_empty() {
            self.line.push(' ');
        }
        self.line += &word;
        self
    }

    fn whole(&mut self, n: u32) -> &mut Self {
        self.add(format!("{n:08x}"))
    }

    fn given(&mut self, x: f32) -> &mut Self {
        self.whole(x.to_bits())
    }

    fn given_f64(&mut self, x: f64) -> &mut Self {
        self.add(format!("{:016x}", x.to_bits()))
    }

    fn result(&mut self, x: f32) -> &mut Self {
        self.whole(bits(x))
    }

    /// Writes the line, unless the file has it already.
    fn end_line(&mut self) -> io::Result<()> {
        let line = std::mem::take(&mut self.line);
        if !self.written.contains(&line) {
            writeln!(self.out, "{line}")?;
            self.written.insert(line);
        }
        Ok(())
    }

    fn finish(mut self) -> io::Result<usize> {
        self.out.flush()?;
        let lines = self.written.len();
        println!("{}: {lines} lines", self.name);
        Ok(lines)
    }
}

/// Writes the files of all leaves.
pub fn write(folder: &Path) -> io::Result<()> {
    fs::create_dir_all(folder)?;
    let lines = write_numbers(folder)?
        + write_loop(folder)?
        + write_decisions(folder)?
        + write_dot(folder)?;
    println!("total: {lines} lines");
    Ok(())
}

// ---- numbers: is_finite, flush_denormal, clip, narrow ----

fn write_numbers(folder: &Path) -> io::Result<usize> {
    let mut lines = 0;

    let mut leaf = Leaf::new(folder, "is_finite")?;
    for x in singles(1, 1500) {
        leaf.given(x).whole(u32::from(x.is_finite())).end_line()?;
    }
    lines += leaf.finish()?;

    let mut leaf = Leaf::new(folder, "flush_denormal")?;
    for x in singles(2, 2000) {
        leaf.given(x).result(flush_denormal(x)).end_line()?;
    }
    lines += leaf.finish()?;

    let mut leaf = Leaf::new(folder, "clip")?;
    for limit in [
        1.0,
        0.125,
        0.05,
        1e-30,
        0.0,
        -0.0,
        f32::from_bits(1),
        f32::MAX,
        f32::INFINITY,
        f32::NAN,
    ] {
        for v in limited(3, limit, 150) {
            leaf.given(v)
                .given(limit)
                .result(clip(v, limit))
                .end_line()?;
        }
    }
    lines += leaf.finish()?;

    let mut leaf = Leaf::new(folder, "narrow")?;
    for x in doubles(4) {
        leaf.given_f64(x).result(x as f32).end_line()?;
    }
    Ok(lines + leaf.finish()?)
}

/// The edges, numbers around 1e-30, and random patterns.
fn singles(seed: u64, random: usize) -> Vec<f32> {
    let mut r = Random::new(seed);
    let mut values = edges();
    values.extend((0..256).flat_map(|e| {
        both_signs(&[
            f32::from_bits(e << 23),
            f32::from_bits((e << 23) | 0x7f_ffff),
        ])
    }));
    values.extend((0..100).map(|_| r.within(2e-30)));
    values.extend((0..random).map(|_| r.f32()));
    values
}

/// What is held to a limit: the edges, the limit and its neighbours, numbers of its size, random patterns.
fn limited(seed: u64, limit: f32, random: usize) -> Vec<f32> {
    let mut r = Random::new(seed ^ u64::from(limit.to_bits()));
    let mut values = edges();
    values.extend(both_signs(&around(limit)));
    values.extend((0..random / 2).map(|_| {
        r.within(if limit > 0.0 && limit < 2.0 {
            2.0 * limit
        } else {
            2.0
        })
    }));
    values.extend((0..random / 2).map(|_| r.f32()));
    values
}

/// For the narrowing: each kind of f64, the midpoints between two f32 and their neighbours.
fn doubles(seed: u64) -> Vec<f64> {
    let mut r = Random::new(seed);
    let mut sizes = Vec::new();
    for b in [
        0x0000_0000_0000_0000,
        0x0000_0000_0000_0001,
        0x000f_ffff_ffff_ffff,
        0x0010_0000_0000_0000,
        0x7fef_ffff_ffff_ffff,
        0x7ff0_0000_0000_0000,
        0x7ff0_0000_0000_0001,
        0x7ff8_0000_0000_0000,
        0x7fff_ffff_ffff_ffff,
    ] {
        sizes.push(f64::from_bits(b));
    }
    for x in edges() {
        if x.is_finite() {
            sizes.extend(around_f64(f64::from(x)));
        }
    }
    // The border of the infinity, the largest f32, half of the smallest, the border of the subnormal numbers.
    for b in [
        0x47ef_ffff_f000_0000,
        0x47ef_ffff_e000_0000,
        0x3690_0000_0000_0000,
        0x380f_ffff_f000_0000,
    ] {
        sizes.extend(around_f64(f64::from_bits(b)));
    }
    // Every power of two about the range of f32.
    for e in 860..1160u64 {
        sizes.extend(around_f64(f64::from_bits(e << 52)));
    }
    // Midpoints: of normal numbers 29 digits are dropped, of subnormal ones more.
    for _ in 0..200 {
        let x = f64::from(r.finite()).to_bits();
        sizes.extend(around_f64(f64::from_bits(x | 0x1000_0000)));
        let units = r.digits(23) as f64 + 0.5;
        sizes.extend(around_f64(units * f64::from(f32::from_bits(1))));
    }
    let mut values: Vec<f64> = sizes.iter().flat_map(|&x| [x, -x]).collect();
    values.extend((0..200).map(|_| r.f64()));
    values
        .extend((0..400).map(|_| {
            f64::from_bits((r.below(300) + 860) << 52 | r.word() & 0x800f_ffff_ffff_ffff)
        }));
    values
}

// ---- the carrier loop: loop_gains, phase_step_f32, integrate, interp_f32_pair, derotate, rotate ----

fn write_loop(folder: &Path) -> io::Result<usize> {
    let mut lines = 0;

    let mut leaf = Leaf::new(folder, "loop_gains")?;
    for bw in bandwidths(5) {
        let (kp, ki) = loop_gains(bw, PHASE_DAMPING);
        leaf.given_f64(bw)
            .given_f64(PHASE_DAMPING)
            .result(kp)
            .result(ki)
            .end_line()?;
    }
    lines += leaf.finish()?;

    let mut leaf = Leaf::new(folder, "phase_step_f32")?;
    for v in turns(6) {
        leaf.given(v).whole(phase_step_f32(v)).end_line()?;
    }
    lines += leaf.finish()?;

    let mut leaf = Leaf::new(folder, "integrate")?;
    for limit in [0.125, 0.05, 1e-30, 0.0] {
        for t in limited(7, limit, 500) {
            leaf.given(t)
                .given(limit)
                .result(integrate(t, limit))
                .end_line()?;
        }
    }
    lines += leaf.finish()?;

    let mut leaf = Leaf::new(folder, "interp_f32_pair")?;
    for p in phases(8) {
        let (c, s) = interp_f32_pair(p).expect("the table has every index");
        leaf.whole(p).result(c).result(s).end_line()?;
    }
    lines += leaf.finish()?;

    let mut leaf = Leaf::new(folder, "derotate")?;
    for (v, c, s) in turned(9) {
        let y = derotate(v, c, s);
        leaf.given(v.re)
            .given(v.im)
            .given(c)
            .given(s)
            .result(y.re)
            .result(y.im)
            .end_line()?;
    }
    lines += leaf.finish()?;

    let mut leaf = Leaf::new(folder, "rotate")?;
    for (v, c, s) in turned(10) {
        let y = rotate(v, c, s);
        leaf.given(v.re)
            .given(v.im)
            .given(c)
            .given(s)
            .result(y.re)
            .result(y.im)
            .end_line()?;
    }
    Ok(lines + leaf.finish()?)
}

/// Two neighbouring bandwidths, a little above `from`, that a gain tells apart. There the gain in
/// f64 lies beside the midpoint of two f32, so the rounding of every operation before counts.
fn beside_a_midpoint(from: f64, gain: impl Fn(f64) -> f32) -> [f64; 2] {
    let (mut low, mut high) = (from.to_bits(), (from * 1.000_001).to_bits());
    let below = gain(from);
    assert!(gain(f64::from_bits(high)) != below);
    while high - low > 1 {
        let middle = low + (high - low) / 2;
        if gain(f64::from_bits(middle)) == below {
            low = middle;
        } else {
            high = middle;
        }
    }
    [low, high].map(f64::from_bits)
}

/// Bandwidths: both zeros, the limits and their neighbours, edges of f64, random ones inside and
/// outside, and those beside the midpoints of a gain.
fn bandwidths(seed: u64) -> Vec<f64> {
    let mut r = Random::new(seed);
    let mut values = vec![
        0.0,
        -0.0,
        f64::from_bits(1),
        f64::from_bits(0x000f_ffff_ffff_ffff),
        f64::MIN_POSITIVE,
        f64::MAX,
        f64::INFINITY,
        f64::NEG_INFINITY,
        f64::NAN,
        f64::from_bits(0x7ff0_0000_0000_0001),
        f64::from_bits(0xffff_ffff_ffff_ffff),
    ];
    for x in [
        0.0001, 0.001, 0.01, 0.02, 0.05, 0.1, 0.2, 0.5, 1.0, 2.0, 1e-20, 1e-40, 1e-160, 1e160,
    ] {
        values.extend(around_f64(x));
        values.extend(around_f64(-x));
    }
    let mut inside = || 0.0001 + 0.1999 * (r.below(1 << 40) as f64 / (1u64 << 40) as f64);
    for _ in 0..120 {
        for bw in beside_a_midpoint(inside(), |bw| loop_gains(bw, PHASE_DAMPING).0) {
            values.extend(around_f64(bw));
        }
        for bw in beside_a_midpoint(inside(), |bw| loop_gains(bw, PHASE_DAMPING).1) {
            values.extend(around_f64(bw));
        }
    }
    values.extend((0..1000).map(|_| inside()));
    values.extend((0..300).map(|_| f64::from_bits((r.below(200) + 923) << 52 | r.word() >> 12)));
    values.extend((0..200).map(|_| r.f64()));
    values
}

/// For the phase step: every exponent, halves of a step and their neighbours, the ends of i64, random ones.
fn turns(seed: u64) -> Vec<f32> {
    let mut r = Random::new(seed);
    let mut values = edges();
    for e in 0..256 {
        for digits in [0, 1, 0x7f_ffff] {
            values.extend(both_signs(&[f32::from_bits(e << 23 | digits)]));
        }
    }
    let step = power_of_two(-32);
    for k in 0..128 {
        values.extend(both_signs(&around((k as f32 + 0.5) * step)));
    }
    for _ in 0..150 {
        let k = r.digits(23);
        values.extend(both_signs(&around((k as f32 + 0.5) * step)));
    }
    for e in [-34, -33, 13, 14, 22, 30, 31, 32] {
        values.extend(both_signs(&around(power_of_two(e))));
    }
    values.extend((0..600).map(|_| r.within(0.2)));
    values.extend((0..200).map(|_| r.within(1e-6)));
    values.extend((0..500).map(|_| r.f32()));
    values
}

/// Phases: the ends of the table, the borders of quadrants and of table steps, random ones.
fn phases(seed: u64) -> Vec<u32> {
    let mut r = Random::new(seed);
    let mut values = vec![
        0,
        1,
        2,
        0xf_ffff,
        0x10_0000,
        0x10_0001,
        0xffff_fffe,
        0xffff_ffff,
    ];
    for quadrant in 0..4u32 {
        for entry in [0u32, 1, 2, 511, 512, 513, 1022, 1023] {
            let p = (quadrant << 30) + (entry << 20);
            values.extend([p.wrapping_sub(1), p, p + 1, p + 0x8_0000, p + 0xf_ffff]);
        }
    }
    for _ in 0..100 {
        let p = (r.below(4096) as u32) << 20;
        values.extend([p.wrapping_sub(1), p, p + 1]);
    }
    values.extend((0..1300).map(|_| (r.word() >> 24) as u32));
    values
}

/// A value and what it is turned by: edges in every place, table entries, random ones.
fn turned(seed: u64) -> Vec<(C32, f32, f32)> {
    let mut r = Random::new(seed);
    let mut cases = Vec::new();
    for a in few_edges() {
        for (c, s) in [
            (1.0, 0.0),
            (0.0, 1.0),
            (0.0, -1.0),
            (-1.0, 0.0),
            (0.6, -0.8),
        ] {
            cases.push((C32::new(a, 0.25), c, s));
            cases.push((C32::new(-0.25, a), c, s));
            cases.push((C32::new(a, a), c, s));
        }
    }
    let few = few_edges();
    for _ in 0..300 {
        cases.push((
            C32::new(r.pick(&few), r.pick(&few)),
            r.pick(&few),
            r.pick(&few),
        ));
    }
    for _ in 0..900 {
        let (c, s) = interp_f32_pair((r.word() >> 24) as u32).expect("the table has every index");
        cases.push((C32::new(r.within(2.0), r.within(2.0)), c, s));
    }
    for _ in 0..300 {
        let (c, s) = interp_f32_pair((r.word() >> 24) as u32).expect("the table has every index");
        cases.push((C32::new(r.f32(), r.f32()), c, s));
    }
    for _ in 0..200 {
        cases.push((C32::new(r.f32(), r.f32()), r.f32(), r.f32()));
    }
    cases
}

// ---- decisions: octant_point, decide_level, decide_symbol, decide, cma_r2 ----

fn write_decisions(folder: &Path) -> io::Result<usize> {
    let mut lines = 0;

    let mut leaf = Leaf::new(folder, "octant_point")?;
    for y in octant_borders(11, 700) {
        let (re, im) = octant_point(y);
        leaf.given(y.re)
            .given(y.im)
            .result(re)
            .result(im)
            .whole(numbers::place(&numbers::PSK8, (re, im)).into())
            .end_line()?;
    }
    lines += leaf.finish()?;

    // The QAM by its number among the constellations.
    let mut leaf = Leaf::new(folder, "decide_level")?;
    for (number, qam) in [(3, Qam::Qam16), (4, Qam::Qam64)] {
        for v in axis(12, qam, 500) {
            leaf.whole(number)
                .given(v)
                .whole(qam.decide_level(v))
                .end_line()?;
        }
    }
    lines += leaf.finish()?;

    let mut leaf = Leaf::new(folder, "decide_symbol")?;
    for (number, k, qam) in [
        (3, EqConstellation::Qam16, Qam::Qam16),
        (4, EqConstellation::Qam64, Qam::Qam64),
    ] {
        let mut cases = edge_pairs();
        cases.extend(qam.point_table());
        cases.extend(points(15, k));
        for y in cases {
            leaf.whole(number)
                .given(y.re)
                .given(y.im)
                .whole(numbers::symbol(qam, y))
                .end_line()?;
        }
    }
    lines += leaf.finish()?;

    let mut leaf = Leaf::new(folder, "decide")?;
    for (number, k) in CONSTELLATIONS.into_iter().enumerate() {
        for y in points(13, k) {
            let d = k.decide(y);
            leaf.whole(number as u32)
                .given(y.re)
                .given(y.im)
                .result(d.re)
                .result(d.im)
                .whole(numbers::number(k, y).into())
                .end_line()?;
        }
    }
    lines += leaf.finish()?;

    let mut leaf = Leaf::new(folder, "cma_r2")?;
    for (number, k) in CONSTELLATIONS.into_iter().enumerate() {
        leaf.whole(number as u32).result(k.cma_r2()).end_line()?;
    }
    Ok(lines + leaf.finish()?)
}

/// Every two of a few edges.
fn edge_pairs() -> Vec<C32> {
    let few = few_edges();
    few.iter()
        .flat_map(|&a| few.iter().map(move |&b| C32::new(a, b)))
        .collect()
}

/// Points on and beside the borders of the octants, edges in either part, random ones.
fn octant_borders(seed: u64, random: usize) -> Vec<C32> {
    let mut r = Random::new(seed);
    let mut cases = edge_pairs();
    for _ in 0..60 {
        let a = r.within(2.0);
        for b in both_signs(&around(a)) {
            cases.push(C32::new(a, b));
        }
        for zero in [0.0, -0.0, f32::from_bits(1), -f32::from_bits(1)] {
            cases.push(C32::new(a, zero));
            cases.push(C32::new(zero, a));
        }
    }
    cases.extend((0..random).map(|_| C32::new(r.within(1.5), r.within(1.5))));
    cases.extend((0..random / 3).map(|_| C32::new(r.f32(), r.f32())));
    cases
}

/// The values of one axis at which the level changes, with four neighbours on either side.
fn level_borders(qam: Qam) -> Vec<f32> {
    let m = qam.levels_per_axis() as i32;
    let half = qam.sqrt_energy() / 2.0;
    let mut values = Vec::new();
    for level in 0..=m {
        let b = ((level - m / 2) as f32 / half).to_bits();
        values.extend((-4..=4).map(|k| f32::from_bits(b.wrapping_add_signed(k))));
    }
    values
}

fn axis(seed: u64, qam: Qam, random: usize) -> Vec<f32> {
    let mut r = Random::new(seed);
    let mut values = edges();
    values.extend(level_borders(qam));
    values.extend(qam.levels().iter().flat_map(|&l| around(l)));
    values.extend((0..random).map(|_| r.within(1.5)));
    values.extend((0..random / 2).map(|_| r.f32()));
    values
}

/// What a constellation decides on: its own borders on either axis, edges, random points.
fn points(seed: u64, k: EqConstellation) -> Vec<C32> {
    let mut r = Random::new(seed ^ (k as u64) << 32);
    let mut cases = Vec::new();
    let mut few = few_edges();
    let qam = match k {
        EqConstellation::Qam16 => Some(Qam::Qam16),
        EqConstellation::Qam64 => Some(Qam::Qam64),
        _ => None,
    };
    if let Some(qam) = qam {
        let borders = level_borders(qam);
        for &v in &borders {
            cases.push(C32::new(v, r.within(1.5)));
            cases.push(C32::new(r.within(1.5), v));
            cases.push(C32::new(v, r.pick(&borders)));
        }
        few.extend(qam.levels());
    }
    if k == EqConstellation::Psk8 {
        cases.extend(octant_borders(seed + 1, 100));
    }
    for &a in &few {
        for _ in 0..6 {
            cases.push(C32::new(a, r.pick(&few)));
            cases.push(C32::new(r.pick(&few), a));
        }
    }
    cases.extend((0..300).map(|_| C32::new(r.within(1.5), r.within(1.5))));
    cases.extend((0..100).map(|_| C32::new(r.f32(), r.f32())));
    cases
}

// ---- the filter sum ----

/// What the parts of a window and of its weights are taken from.
#[derive(Clone, Copy)]
enum Parts {
    AboutOne,
    ManySizes,
    AnyFinite,
    FiniteEdges,
    Zeros,
    /// About one, and one in twelve an edge, NaNs and infinities among them.
    SomeEdges,
}

impl Parts {
    fn one(self, r: &mut Random) -> f32 {
        match self {
            Parts::AboutOne => r.within(2.0),
            Parts::ManySizes => {
                let e = r.below(120) as i32 - 60;
                r.within(power_of_two(e))
            }
            Parts::AnyFinite => r.finite(),
            Parts::FiniteEdges => loop {
                let x = r.pick(&few_edges());
                if x.is_finite() {
                    return x;
                }
            },
            Parts::Zeros => r.pick(&[0.0, -0.0]),
            Parts::SomeEdges if r.below(12) == 0 => r.pick(&few_edges()),
            Parts::SomeEdges => r.within(2.0),
        }
    }
}

fn write_dot(folder: &Path) -> io::Result<usize> {
    let mut r = Random::new(14);
    let mut leaf = Leaf::new(folder, "dot_complex")?;
    for n in 0..=126 {
        let from = r.pick(&[Parts::AboutOne, Parts::ManySizes]);
        add_dot(&mut leaf, &mut r, n, from)?;
    }
    for n in 0..=20 {
        add_dot(&mut leaf, &mut r, n, Parts::Zeros)?;
        for _ in 0..13 {
            add_dot(&mut leaf, &mut r, n, Parts::AboutOne)?;
            add_dot(&mut leaf, &mut r, n, Parts::ManySizes)?;
            add_dot(&mut leaf, &mut r, n, Parts::AnyFinite)?;
            add_dot(&mut leaf, &mut r, n, Parts::FiniteEdges)?;
            add_dot(&mut leaf, &mut r, n, Parts::SomeEdges)?;
        }
    }
    leaf.finish()
}

fn add_dot(leaf: &mut Leaf, r: &mut Random, n: usize, from: Parts) -> io::Result<()> {
    let parts: Vec<f32> = (0..4 * n).map(|_| from.one(r)).collect();
    let (window, weights) = parts.split_at(2 * n);
    let complex = |p: &[f32]| -> Vec<C32> { p.chunks(2).map(|c| C32::new(c[0], c[1])).collect() };
    let (x, w) = (complex(window), complex(weights));
    let y = dot_complex_c32(&x, &w);
    let z = Document01Dot.dot_complex(&x, &w).expect("equal lengths");
    assert!(
        bits(y.re) == bits(z.re) && bits(y.im) == bits(z.im),
        "the sums of the Rust and of document 01 differ"
    );
    leaf.whole(n as u32);
    for &v in &parts {
        leaf.given(v);
    }
    leaf.result(y.re).result(y.im).end_line()
}
