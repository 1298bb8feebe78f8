//! The words of a line: eight hexadecimal digits each, single blanks between them.

use std::fmt::Write as _;
use std::io;

use crate::kernels::equalize::{EqConstellation, EqMode, OracleRecord};
use crate::types::C32;

/// The pattern of a result; every NaN is written alike.
pub fn bits(x: f32) -> u32 {
    if x.is_nan() { 0x7fc0_0000 } else { x.to_bits() }
}

pub fn number(k: EqConstellation) -> u32 {
    match k {
        EqConstellation::Bpsk => 0,
        EqConstellation::Qpsk => 1,
        EqConstellation::Psk8 => 2,
        EqConstellation::Qam16 => 3,
        EqConstellation::Qam64 => 4,
    }
}

#[derive(Default)]
pub struct Line(String);

impl Line {
    pub fn whole(&mut self, n: u32) {
        let gap = if self.0.is_empty() { "" } else { " " };
        write!(self.0, "{gap}{n:08x}").expect("a String takes any text");
    }

    pub fn count(&mut self, n: usize) {
        self.whole(u32::try_from(n).expect("a count is small"));
    }

    pub fn given(&mut self, x: f32) {
        self.whole(x.to_bits());
    }

    /// Samples, weights or a window, before a call.
    pub fn given_all(&mut self, all: &[C32]) {
        for x in all {
            self.given(x.re);
            self.given(x.im);
        }
    }

    /// The same after it.
    pub fn result_all(&mut self, all: &[C32]) {
        for x in all {
            self.whole(bits(x.re));
            self.whole(bits(x.im));
        }
    }

    /// A record: 14 words.
    pub fn record(&mut self, r: &OracleRecord) {
        let bandwidth = r.params.phase_bw.to_bits();
        self.whole(number(r.params.constellation));
        self.count(r.params.feedback_taps);
        self.whole(bits(r.params.mu_cma));
        self.whole(bits(r.params.mu_dd));
        self.whole(r.params.cma_symbols);
        self.whole((bandwidth >> 32) as u32);
        self.whole(bandwidth as u32);
        self.whole(bits(r.kp));
        self.whole(bits(r.ki));
        self.whole(u32::from(r.mode == EqMode::Decision));
        self.whole(r.count);
        self.whole(bits(r.mse));
        self.whole(r.phase);
        self.whole(bits(r.freq));
    }

    /// Marks: eight to a word, the first in the highest digit.
    pub fn marks(&mut self, marks: &[u8]) {
        for eight in marks.chunks(8) {
            let digits = eight.iter().zip(0..);
            self.whole(digits.fold(0, |n, (&m, i)| n | u32::from(m) << (28 - 4 * i)));
        }
    }

    /// Numbers: four to a word, two digits each, the first in the highest.
    pub fn numbers(&mut self, numbers: &[u8]) {
        for four in numbers.chunks(4) {
            let bytes = four.iter().zip(0..);
            self.whole(bytes.fold(0, |n, (&b, i)| n | u32::from(b) << (24 - 8 * i)));
        }
    }

    pub fn write(&self, out: &mut impl io::Write) -> io::Result<()> {
        writeln!(out, "{}", self.0)
    }
}
