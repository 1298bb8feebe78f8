//! Programs over the original Rust text. build.rs takes the files from the folder that ORACLE_SRC
//! names; see README.md.

#![allow(dead_code)]

include!(concat!(env!("OUT_DIR"), "/sdrk/mods.rs"));

#[cfg(feature = "bench")]
mod bench;
mod calls;
mod cases;
mod given;
mod inputs;
mod leaves;
mod line;
mod numbers;
mod others;
mod recording;

use std::fs::File;
use std::io::{self, BufWriter, Write};
use std::path::Path;
use std::process::ExitCode;

const USAGE: &str = "usage: oracle leaves OUT_FOLDER
       oracle calls SEED COUNT [--long] [FILE]
       oracle places SEED ROUNDS [FILE]
       oracle others SEED COUNT [FILE]
       oracle answer [FILE]        (cases from the standard input)
       oracle demo RECORDING [FILE]
       oracle stream RECORDING [OPTION VALUE]..    (options as the program's; symbols go to the standard output)
       oracle bench [SECONDS]      (with the feature bench)";

fn main() -> ExitCode {
    let args: Vec<String> = std::env::args().skip(1).collect();
    let words: Vec<&str> = args.iter().map(String::as_str).collect();
    match run(&words) {
        Ok(true) => ExitCode::SUCCESS,
        Ok(false) => ExitCode::FAILURE,
        Err(e) => {
            eprintln!("oracle: {e}");
            ExitCode::FAILURE
        }
    }
}

/// Whether the program did what it was asked, and found the Rust at one with itself.
fn run(words: &[&str]) -> io::Result<bool> {
    match *words {
        ["leaves", folder] => leaves::write(Path::new(folder)).map(|()| true),
        ["calls", seed, count, "--long", ref file @ ..] if file.len() < 2 => {
            calls::write(&mut out(file)?, whole(seed)?, whole(count)?, true)
        }
        ["calls", seed, count, ref file @ ..] if file.len() < 2 => {
            calls::write(&mut out(file)?, whole(seed)?, whole(count)?, false)
        }
        ["places", seed, rounds, ref file @ ..] if file.len() < 2 => {
            calls::write_places(&mut out(file)?, whole(seed)?, whole(rounds)?)
        }
        ["others", seed, count, ref file @ ..] if file.len() < 2 => {
            others::write(&mut out(file)?, whole(seed)?, whole(count)?).map(|()| true)
        }
        ["answer", ref file @ ..] if file.len() < 2 => {
            given::write(&mut io::stdin().lock(), &mut out(file)?)
        }
        ["demo", recording, ref file @ ..] if file.len() < 2 => {
            let (mut input, mut out) = (File::open(recording)?, out(file)?);
            recording::write(&mut input, &recording::DEMO, &mut out).map(|()| true)
        }
        ["stream", recording, ref words @ ..] => {
            let (mut input, mut out) = (File::open(recording)?, out(&[])?);
            recording::write(&mut input, words, &mut out).map(|()| true)
        }
        #[cfg(feature = "bench")]
        ["bench"] => bench::write(&mut io::stdout(), 1),
        #[cfg(feature = "bench")]
        ["bench", seconds] => bench::write(&mut io::stdout(), whole(seconds)?),
        _ => Err(io::Error::other(USAGE)),
    }
}

fn whole(word: &str) -> io::Result<u64> {
    word.parse().map_err(io::Error::other)
}

/// The file that a last word names, or else the standard output.
fn out(file: &[&str]) -> io::Result<Box<dyn Write>> {
    match file {
        [name] => Ok(Box::new(BufWriter::new(File::create(name)?))),
        _ => Ok(Box::new(BufWriter::new(io::stdout()))),
    }
}
