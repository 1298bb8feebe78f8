//! The Rust's answers to calls that are given, for the rows and vectors of the definition.

use std::io::{self, BufRead, Write};

use crate::calls;
use crate::cases::{CONSTELLATIONS, Case};
use crate::kernels::equalize::{EqMode, EqParams, OracleRecord};
use crate::types::C32;

/// Reads a case from each line, its words up to the samples, and writes the line whole.
pub fn write(input: &mut impl BufRead, out: &mut impl Write) -> io::Result<bool> {
    let mut agreed = true;
    for line in input.lines() {
        let line = line?;
        let words: Option<Vec<u32>> = line.split_whitespace().map(word).collect();
        let Some(case) = words.and_then(|words| case(&words)) else {
            return Err(io::Error::other(format!("no case: {line}")));
        };
        agreed &= calls::write_one(out, &case)?;
    }
    out.flush().map(|()| agreed)
}

fn word(text: &str) -> Option<u32> {
    u32::from_str_radix(text, 16).ok()
}

/// A case: record, taps, samples of both calls, weights, window, samples.
fn case(words: &[u32]) -> Option<Case> {
    let record = record(words.get(..14)?)?;
    let [taps, first, second] = *words.get(14..17)? else {
        return None;
    };
    let (taps, blocks) = (taps as usize, [first as usize, second as usize]);
    let floats: Vec<C32> = words[17..]
        .chunks(2)
        .map(|x| Some(C32::new(f32::from_bits(x[0]), f32::from_bits(*x.get(1)?))))
        .collect::<Option<_>>()?;
    if floats.len() != 2 * taps + blocks[0] + blocks[1] {
        return None;
    }
    Some(Case {
        record,
        weights: floats[..taps].to_vec(),
        window: floats[taps..2 * taps].to_vec(),
        blocks,
        input: floats[2 * taps..].to_vec(),
    })
}

fn record(w: &[u32]) -> Option<OracleRecord> {
    let f = |i: usize| f32::from_bits(w[i]);
    Some(OracleRecord {
        params: EqParams {
            constellation: *CONSTELLATIONS.get(w[0] as usize)?,
            feedback_taps: w[1] as usize,
            mu_cma: f(2),
            mu_dd: f(3),
            cma_symbols: w[4],
            phase_bw: f64::from_bits(u64::from(w[5]) << 32 | u64::from(w[6])),
        },
        kp: f(7),
        ki: f(8),
        mode: match w[9] {
            0 => EqMode::Cma,
            1 => EqMode::Decision,
            _ => return None,
        },
        count: w[10],
        mse: f(11),
        phase: w[12],
        freq: f(13),
    })
}
