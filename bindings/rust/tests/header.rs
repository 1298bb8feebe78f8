//! include/equalizer.h and this crate agree: header.c, compiled against the header, prints what it
//! says. Without a C compiler these tests are skipped, and say so.

use equalizer::ffi::{EqRecord, EqReply, EqSettings};
use equalizer::{
    BLANK, Constellation, Error, HEARD, Mode, NO_NUMBER, OFF_SCALE, SILENT, SPILLED, Settings,
};
use std::any::type_name_of_val;
use std::collections::HashMap;
use std::io::{ErrorKind, Write, stderr};
use std::mem::offset_of;
use std::path::Path;
use std::process::Command;
use std::sync::OnceLock;

type Facts = HashMap<String, String>;

/// The first word of each line that header.c prints, and the rest; none without a C compiler.
fn header() -> Option<&'static Facts> {
    static FACTS: OnceLock<Option<Facts>> = OnceLock::new();
    let facts = FACTS.get_or_init(|| {
        let here = Path::new(env!("CARGO_MANIFEST_DIR"));
        let program = Path::new(env!("CARGO_TARGET_TMPDIR")).join("header");
        let compiled = ["gcc", "cc", "clang"].into_iter().find_map(|compiler| {
            let status = Command::new(compiler)
                .args("-std=c11 -Wall -Wextra -Wpedantic -Werror -I".split(' '))
                .arg(here.join("../../include"))
                .arg(here.join("tests/header.c"))
                .arg("-o")
                .arg(&program)
                .status();
            match status {
                Err(e) if e.kind() == ErrorKind::NotFound => None,
                status => Some(status.unwrap().success()),
            }
        });
        let Some(compiled) = compiled else {
            // eprintln! would show it only where a test fails
            let told = stderr().write_all(b"skipped: no C compiler (gcc, cc, clang)\n");
            told.unwrap();
            return None;
        };
        assert!(compiled, "header.c does not compile");
        let output = Command::new(&program).output().unwrap();
        assert!(output.status.success());
        let lines = String::from_utf8(output.stdout).unwrap();
        let facts = lines.lines().map(|line| line.split_once(' ').unwrap());
        Some(facts.map(|(k, v)| (k.into(), v.into())).collect())
    });
    facts.as_ref()
}

/// Size and alignment of the struct; offset and type of each of its fields, which are all named.
macro_rules! same_struct {
    ($facts:expr, $whole:ident: $($field:ident)+) => {
        let whole = format!("{} {}", size_of::<$whole>(), align_of::<$whole>());
        assert_eq!($facts[stringify!($whole)], whole);
        // SAFETY: numbers only, of which all bits may be 0.
        let $whole { $($field),+ } = unsafe { std::mem::zeroed() };
        $(
            let kind = type_name_of_val(&$field).rsplit("::").next().unwrap();
            let field = format!("{} {kind}", offset_of!($whole, $field));
            assert_eq!($facts[concat!(stringify!($whole), ".", stringify!($field))], field);
        )+
    };
}

#[test]
fn structs() {
    let Some(facts) = header() else { return };
    same_struct!(facts, EqSettings: phase_bw feedback_taps constellation mu_cma mu_dd cma_symbols);
    same_struct!(facts, EqRecord: settings kp ki mode count mse phase freq);
    same_struct!(facts, EqReply: record number expected got);
}

#[test]
fn numbers() {
    let Some(facts) = header() else { return };
    let (expected, got) = (3, 4);
    let numbers = [
        ("EQ_HEARD", HEARD.into()),
        ("EQ_BLANK", BLANK.into()),
        ("EQ_SPILLED", SPILLED.into()),
        ("EQ_SILENT", SILENT.into()),
        ("EQ_OFF_SCALE", OFF_SCALE.into()),
        ("EQ_NO_NUMBER", NO_NUMBER.into()),
        ("EQ_BPSK", Constellation::Bpsk as u32),
        ("EQ_QPSK", Constellation::Qpsk as u32),
        ("EQ_PSK8", Constellation::Psk8 as u32),
        ("EQ_QAM16", Constellation::Qam16 as u32),
        ("EQ_QAM64", Constellation::Qam64 as u32),
        ("EQ_CMA", Mode::Cma as u32),
        ("EQ_DECISION", Mode::Decision as u32),
        ("EQ_SERVED", 0),
        ("EQ_ODD", Error::Odd.number()),
        ("EQ_FEEDBACK", Error::Feedback.number()),
        ("EQ_TAPS", Error::Taps.number()),
        ("EQ_WINDOW", Error::Window { expected, got }.number()),
        ("EQ_MU_CMA", Error::MuCma.number()),
        ("EQ_MU_DD", Error::MuDd.number()),
        ("EQ_BANDWIDTH", Error::Bandwidth.number()),
        ("EQ_RECORD", Error::Record.number()),
        ("EQ_OUTPUT", Error::Output { expected, got }.number()),
        ("EQ_MARKS", Error::Marks { expected, got }.number()),
        ("EQ_NUMBERS", Error::Numbers.number()),
    ];
    for (name, number) in numbers {
        assert_eq!(facts[name], number.to_string(), "{name}");
    }
}

#[test]
fn words() {
    let Some(facts) = header() else { return };
    let (expected, got) = (3, 4);
    let errors = [
        Error::Odd,
        Error::Feedback,
        Error::Taps,
        Error::Window { expected, got },
        Error::MuCma,
        Error::MuDd,
        Error::Bandwidth,
        Error::Record,
        Error::Output { expected, got },
        Error::Marks { expected, got },
        Error::Numbers,
        Error::Unknown(11),
        Error::Unknown(12),
        Error::Unknown(14),
        Error::Unknown(u32::MAX),
    ];
    assert_eq!(facts["words.0"], "served");
    for e in errors {
        let number = e.number();
        let lengths = if matches!(number, 4 | 9 | 10) {
            ": 3 expected, 4 given"
        } else {
            ""
        };
        let words = &facts[&format!("words.{number}")];
        assert_eq!(
            e.to_string(),
            format!("refused, number {number}: {words}{lengths}")
        );
    }
}

#[test]
fn defaults() {
    let Some(facts) = header() else { return };
    let d = Settings::default();
    let said: Vec<_> = facts["default"].split(' ').collect();
    assert_eq!(said.len(), 6);
    assert_eq!(said[0].parse(), Ok(d.phase_bw));
    assert_eq!(said[1].parse(), Ok(d.feedback_taps));
    assert_eq!(said[2].parse(), Ok(d.constellation as u32));
    assert_eq!(said[3].parse(), Ok(d.mu_cma));
    assert_eq!(said[4].parse(), Ok(d.mu_dd));
    assert_eq!(said[5].parse(), Ok(d.cma_symbols));
}

#[test]
fn version() {
    let Some(facts) = header() else { return };
    let v = env!("CARGO_PKG_VERSION");
    assert_eq!(facts["version"], format!("{v} {v}"));
}
