//! The Rust's symbols of a recording: what the gate holds the program's output to.

use std::io::{self, Read, Write};

use crate::kernels::equalize::{EqConstellation, EqParams, EqualizeState, equalize_with};
use crate::reference::dot::Document01Dot;
use crate::types::C32;

const BLOCK: usize = 20;

/// The demonstration's settings (demo/run.sh).
pub const DEMO: [&str; 4] = ["--feedback", "4", "--mu-dd", "0.1"];

/// Settings, forward taps and the frequency at the start.
struct Settings {
    params: EqParams,
    taps: usize,
    frequency: f32,
}

/// The settings that options name as the program's do; 11 taps and the Rust's own where they name none.
fn settings(words: &[&str]) -> io::Result<Settings> {
    let mut s = Settings {
        params: EqParams::default(),
        taps: 11,
        frequency: 0.0,
    };
    for pair in words.chunks(2) {
        let [option, value] = *pair else {
            return Err(io::Error::other(format!("{} takes a value", pair[0])));
        };
        match option {
            "--constellation" => s.params.constellation = constellation(value)?,
            "--taps" => s.taps = number(value)?,
            "--feedback" => s.params.feedback_taps = number(value)?,
            "--mu-cma" => s.params.mu_cma = number(value)?,
            "--mu-dd" => s.params.mu_dd = number(value)?,
            "--cma-symbols" if value == "never" => s.params.cma_symbols = u32::MAX,
            "--cma-symbols" => s.params.cma_symbols = number(value)?,
            "--bandwidth" => s.params.phase_bw = number(value)?,
            "--frequency" => s.frequency = number(value)?,
            _ => return Err(io::Error::other(format!("there is no option {option}"))),
        }
    }
    Ok(s)
}

fn number<T: std::str::FromStr>(word: &str) -> io::Result<T> {
    word.parse()
        .map_err(|_| io::Error::other(format!("{word} is no such number")))
}

fn constellation(word: &str) -> io::Result<EqConstellation> {
    Ok(match word {
        "bpsk" => EqConstellation::Bpsk,
        "qpsk" => EqConstellation::Qpsk,
        "8psk" => EqConstellation::Psk8,
        "16qam" => EqConstellation::Qam16,
        "64qam" => EqConstellation::Qam64,
        _ => return Err(io::Error::other(format!("there is no constellation {word}"))),
    })
}

/// Reads interleaved little-endian f32 and writes as many, with the settings of the options.
pub fn write(input: &mut impl Read, words: &[&str], out: &mut impl Write) -> io::Result<()> {
    let mut bytes = Vec::new();
    input.read_to_end(&mut bytes)?;
    let samples: Vec<C32> = bytes
        .chunks_exact(8)
        .map(|b| C32::new(float(&b[..4]), float(&b[4..])))
        .collect();
    let s = settings(words)?;
    let zeros = vec![C32::new(0.0, 0.0); s.taps + s.params.feedback_taps];
    let mut state =
        EqualizeState::new(zeros.clone(), zeros, s.params).expect("the settings are in range");
    state.set_frequency(s.frequency);
    let mut symbols = vec![C32::new(0.0, 0.0); BLOCK];
    for block in samples.chunks(BLOCK) {
        let symbols = &mut symbols[..block.len()];
        equalize_with(&Document01Dot, &mut state, block, symbols).expect("the lengths agree");
        for s in symbols {
            out.write_all(&s.re.to_le_bytes())?;
            out.write_all(&s.im.to_le_bytes())?;
        }
    }
    out.flush()
}

fn float(bytes: &[u8]) -> f32 {
    f32::from_le_bytes(bytes.try_into().expect("four bytes"))
}
