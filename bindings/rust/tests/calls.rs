//! Every method, every refusal, and the exported calls on numbers that no record has.

use equalizer::ffi::{self, EqRecord, EqReply, EqSettings};
use equalizer::{
    BLANK, Constellation, Equalizer, Error, HEARD, Mode, NO_NUMBER, OFF_SCALE, SILENT, SPILLED,
    Settings,
};

const ALL: [Constellation; 5] = [
    Constellation::Bpsk,
    Constellation::Qpsk,
    Constellation::Psk8,
    Constellation::Qam16,
    Constellation::Qam64,
];

fn qpsk() -> Equalizer {
    Equalizer::new(11, Settings::default()).unwrap()
}

/// QPSK points in a fixed order.
fn samples(n: usize) -> Vec<f32> {
    (0..2 * n)
        .map(|i| if i * i % 7 < 3 { 0.7 } else { -0.7 })
        .collect()
}

/// What a served call writes.
#[derive(Debug, PartialEq)]
struct Block {
    output: Vec<f32>,
    marks: Vec<u8>,
    numbers: Vec<u8>,
}

impl Block {
    /// Of what no call writes.
    fn blank(input: &[f32]) -> Block {
        Block {
            output: vec![9.0; input.len()],
            marks: vec![9; input.len() / 2],
            numbers: vec![99; input.len() / 2],
        }
    }
}

fn run(e: &mut Equalizer, input: &[f32]) -> Block {
    let mut b = Block::blank(input);
    e.equalize(input, &mut b.output, &mut b.marks, &mut b.numbers)
        .unwrap();
    for (&mark, &number) in b.marks.iter().zip(&b.numbers) {
        assert_eq!(mark == HEARD, number != NO_NUMBER);
    }
    b
}

fn run_plain(e: &mut Equalizer, input: &[f32]) -> Block {
    let mut b = Block::blank(input);
    e.reference(input, &mut b.output, &mut b.marks, &mut b.numbers)
        .unwrap();
    b
}

/// The call is refused with this, and leaves the equalizer as it was.
fn refused(e: &mut Equalizer, why: Error, call: impl FnOnce(&mut Equalizer) -> Result<(), Error>) {
    let before = e.clone();
    assert_eq!(call(e), Err(why));
    assert_eq!(*e, before);
}

#[test]
fn a_new_equalizer() {
    for constellation in ALL {
        for (taps, feedback_taps) in [(3, 0), (63, 0), (3, 63), (63, 63), (15, 5)] {
            let settings = Settings {
                constellation,
                feedback_taps,
                ..Settings::default()
            };
            let e = Equalizer::new(taps, settings).unwrap();
            assert_eq!((e.taps(), e.feedback_taps()), (taps, feedback_taps));
            assert_eq!((e.constellation(), e.settings()), (constellation, settings));
            assert_eq!((e.mode(), e.count(), e.mse()), (Mode::Cma, 0, 1.0));
            assert_eq!((e.phase(), e.frequency()), (0, 0.0));
            assert_eq!((e.mu_cma(), e.mu_dd(), e.cma_symbols()), (0.05, 0.02, 1000));
            let (kp, ki) = e.phase_gains();
            assert!(0.0 < ki && ki < kp);
            let mut start = vec![0.0; 2 * (taps + feedback_taps)];
            assert_eq!(e.window(), start);
            start[taps / 2 * 2] = 1.0;
            assert_eq!(e.weights(), start);
        }
    }
    let e = Equalizer::new(
        3,
        Settings {
            cma_symbols: 0,
            ..Settings::default()
        },
    )
    .unwrap();
    assert_eq!(e.mode(), Mode::Decision);
}

#[test]
fn new_refuses() {
    let d = Settings::default();
    let why = |taps, s| Equalizer::new(taps, s).unwrap_err();
    assert_eq!(
        why(
            11,
            Settings {
                feedback_taps: 64,
                ..d
            }
        ),
        Error::Feedback
    );
    assert_eq!(
        why(
            usize::MAX,
            Settings {
                feedback_taps: usize::MAX,
                ..d
            }
        ),
        Error::Feedback
    );
    for taps in [0, 1, 4, 64, 65, 67, usize::MAX, usize::MAX - 1] {
        assert_eq!(why(taps, d), Error::Taps);
    }
    for mu in [0.0, 0.000_009, 1.000_1, f32::NAN] {
        assert_eq!(
            why(
                11,
                Settings {
                    mu_cma: mu,
                    mu_dd: mu,
                    ..d
                }
            ),
            Error::MuCma
        );
        assert_eq!(why(11, Settings { mu_dd: mu, ..d }), Error::MuDd);
    }
    for phase_bw in [0.000_09, 0.200_1, -0.01, f64::NAN] {
        assert_eq!(why(11, Settings { phase_bw, ..d }), Error::Bandwidth);
    }
    let with = |w, h| Equalizer::with_buffers(d, vec![0.0; w], vec![0.0; h]).unwrap_err();
    assert_eq!(with(7, 6), Error::Odd);
    assert_eq!(with(6, 7), Error::Odd);
    assert_eq!(
        with(6, 8),
        Error::Window {
            expected: 3,
            got: 4
        }
    );
    assert_eq!((Error::Odd.number(), with(6, 8).number()), (1, 4));
}

#[test]
fn a_block() {
    let mut e = qpsk();
    let b = run(&mut e, &samples(300));
    assert!(b.marks.iter().all(|&m| m == HEARD) && b.output.iter().all(|y| y.is_finite()));
    assert_eq!((e.count(), e.mode()), (300, Mode::Cma));
    run(&mut e, &samples(700));
    assert_eq!((e.count(), e.mode()), (1000, Mode::Decision));
    assert!(e.mse() < 1.0);
}

#[test]
fn the_plain_path_agrees() {
    for (taps, feedback_taps) in [(11, 0), (15, 5)] {
        for constellation in ALL {
            let settings = Settings {
                constellation,
                feedback_taps,
                cma_symbols: 100,
                ..Settings::default()
            };
            let mut a = Equalizer::new(taps, settings).unwrap();
            let mut b = a.clone();
            let mut input = samples(301);
            input[140] = f32::INFINITY;
            assert_eq!(run(&mut a, &input), run_plain(&mut b, &input));
            assert_eq!(a, b);
        }
    }
}

#[test]
fn blanks_and_spills() {
    let mut e = qpsk();
    let mut input = samples(12);
    input[8] = f32::NAN;
    input[15] = f32::NEG_INFINITY;
    let Block { output, marks, .. } = run(&mut e, &input);
    assert_eq!((marks[4], marks[7]), (BLANK, BLANK));
    assert_eq!(
        (output[8..10].to_vec(), output[14..16].to_vec()),
        (vec![0.0; 2], vec![0.0; 2])
    );
    assert_eq!(e.count(), 12);
    // a sum that overflows: every weight as large as it gets
    let mut e = qpsk();
    run(&mut e, &samples(12));
    let (record, _, window) = e.into_parts();
    let mut e = Equalizer::from_parts(record, vec![f32::MAX; 22], window);
    let b = run(&mut e, &samples(1));
    assert_eq!((b.output, b.marks), (vec![0.0; 2], vec![SPILLED]));
}

/// One call of 70 samples: silence, a burst across sample 64, blanks in both. A sample is silent where
/// it and all that its forward taps hold are zero.
#[test]
fn silence_and_a_burst() {
    for (taps, feedback_taps) in [(3, 0), (11, 0), (5, 4)] {
        let settings = Settings {
            feedback_taps,
            ..Settings::default()
        };
        let mut a = Equalizer::new(taps, settings).unwrap();
        let mut b = a.clone();
        let mut input = vec![0.0; 140];
        input[120..132].copy_from_slice(&samples(6));
        for i in [10, 41, 63, 68] {
            input[2 * i] = f32::NAN;
        }
        input[4] = -0.0;
        let zero = |i: usize| {
            input[2 * i..2 * i + 2]
                .iter()
                .all(|&x| x == 0.0 || x.is_nan())
        };
        let expected: Vec<u8> = (0..70)
            .map(|i| {
                if input[2 * i].is_nan() {
                    BLANK
                } else if (i.saturating_sub(taps - 1)..=i).all(zero) {
                    SILENT
                } else {
                    HEARD
                }
            })
            .collect();
        let told = run_plain(&mut b, &input);
        assert_eq!(told.marks, expected);
        assert_eq!(run(&mut a, &input), told);
        assert_eq!(a, b);
        assert!([HEARD, BLANK, SILENT].iter().all(|m| expected.contains(m)));
    }
}

/// The filter sum is finite, and turned by the phase it is not.
#[test]
fn off_scale() {
    let mut e = Equalizer::new(3, Settings::default()).unwrap();
    e.set_frequency(0.125);
    let b = run(&mut e, &[3e38, 3e38, 0.0, 0.0]);
    assert_eq!(b.output, [0.0, 0.0, f32::INFINITY, 0.0]);
    assert_eq!(b.marks, [HEARD, OFF_SCALE]);
    assert_eq!(b.numbers, [0, NO_NUMBER]);
}

/// A call with the Rust's answers, by both paths.
#[test]
fn numbers_of_a_call() {
    let settings = Settings {
        cma_symbols: 4,
        ..Settings::default()
    };
    let input = [
        0xbf1f_efdf,
        0x3f5d_7cc5,
        0x3f60_3193,
        0xbf8a_246c,
        0x7fc0_0000,
        0x3f5a_52a9,
        0xbe8b_5e92,
        0xbf15_edeb,
        0xbf1e_bf49,
        0x3f20_96c6,
    ]
    .map(f32::from_bits);
    let symbols = [
        0,
        0,
        0xbf1f_efdf,
        0x3f5d_7cc5,
        0,
        0,
        0xba83_adc6,
        0xbafb_84d6,
        0xbe89_416c,
        0xbf15_9cdf,
    ];
    for run in [run, run_plain] {
        let b = run(&mut Equalizer::new(3, settings).unwrap(), &input);
        let bits: Vec<u32> = b.output.iter().map(|y| y.to_bits()).collect();
        assert_eq!(bits, symbols);
        assert_eq!(b.marks, [HEARD, HEARD, BLANK, HEARD, HEARD]);
        assert_eq!(b.numbers, [0, 2, NO_NUMBER, 3, 3]);
    }
}

/// The points in the order of their numbers.
fn points(constellation: Constellation) -> Vec<(f32, f32)> {
    let a = std::f32::consts::FRAC_1_SQRT_2;
    let square = |side: usize, energy: f32| {
        // the level whose Gray code this is
        let level = move |g: usize| (0..side).find(|i| i ^ (i >> 1) == g).unwrap();
        let part = move |g: usize| (2.0 * level(g) as f32 - (side - 1) as f32) / energy.sqrt();
        let all = (0..side * side).map(move |n| (part(n / side), part(n % side)));
        all.collect()
    };
    match constellation {
        Constellation::Bpsk => vec![(1.0, 0.0), (-1.0, 0.0)],
        Constellation::Qpsk => vec![(a, a), (a, -a), (-a, a), (-a, -a)],
        Constellation::Psk8 => (0..8)
            .map(|n| ((2 * n + 1) as f32 * std::f32::consts::PI / 8.0).sin_cos())
            .map(|(im, re)| (re, im))
            .collect(),
        Constellation::Qam16 => square(4, 10.0),
        Constellation::Qam64 => square(8, 42.0),
    }
}

/// The centre of three taps gives each sample back, one later and hardly changed.
#[test]
fn every_point_has_its_number() {
    for constellation in ALL {
        let settings = Settings {
            constellation,
            mu_cma: 0.00001,
            phase_bw: 0.0,
            ..Settings::default()
        };
        let mut input: Vec<f32> = points(constellation)
            .into_iter()
            .flat_map(|(re, im)| [re, im])
            .collect();
        input.extend([0.0, 0.0]);
        let last = input.len() / 2 - 1;
        let b = run(&mut Equalizer::new(3, settings).unwrap(), &input);
        let expected: Vec<u8> = (0..last as u8).collect();
        assert_eq!(b.numbers[1..], expected);
    }
}

#[test]
fn any_cut_gives_the_same() {
    let input = samples(200);
    let mut whole = qpsk();
    let told = run(&mut whole, &input);
    let mut cut = qpsk();
    let mut joined = Block::blank(&[]);
    for piece in [0..0, 0..2, 2..130, 130..400] {
        let b = run(&mut cut, &input[piece]);
        joined.output.extend(b.output);
        joined.marks.extend(b.marks);
        joined.numbers.extend(b.numbers);
    }
    assert_eq!((joined, cut), (told, whole));
}

/// The symbol of sample i is that of the sample (taps - 1) / 2 earlier; its mark is its own.
#[test]
fn the_delay() {
    for taps in [3, 11, 63] {
        let mut e = Equalizer::new(taps, Settings::default()).unwrap();
        let mut input = vec![0.0; 200];
        input[0] = 0.5;
        input[199] = f32::NAN;
        let Block { output, marks, .. } = run(&mut e, &input);
        let first = output.iter().position(|&y| y != 0.0);
        assert_eq!(first, Some(2 * ((taps - 1) / 2)));
        assert_eq!(marks.iter().position(|&m| m == BLANK), Some(99));
    }
}

/// Different equalizers at once do what one does alone.
#[test]
fn threads() {
    let input = samples(2000);
    let mut alone = qpsk();
    let told = run(&mut alone, &input);
    std::thread::scope(|s| {
        for _ in 0..4 {
            s.spawn(|| {
                let mut e = qpsk();
                assert_eq!(run(&mut e, &input), told);
                assert_eq!(e, alone);
            });
        }
    });
}

#[test]
fn equalize_refuses() {
    let x = samples(4);
    let (mut y, mut m, mut n) = (vec![5.0; 9], vec![5; 9], vec![5; 9]);
    let e = &mut qpsk();
    refused(e, Error::Odd, |e| {
        e.equalize(&x[..7], &mut y[..8], &mut m[..4], &mut n[..4])
    });
    refused(e, Error::Odd, |e| {
        e.equalize(&x, &mut y[..9], &mut m[..4], &mut n[..4])
    });
    refused(
        e,
        Error::Output {
            expected: 4,
            got: 3,
        },
        |e| e.equalize(&x, &mut y[..6], &mut m[..4], &mut n[..4]),
    );
    refused(
        e,
        Error::Marks {
            expected: 4,
            got: 9,
        },
        |e| e.equalize(&x, &mut y[..8], &mut m, &mut n[..4]),
    );
    // 8 comes before 9 and 10, and after 1
    let (mut record, weights, window) = e.clone().into_parts();
    record.count = 1001;
    let e = &mut Equalizer::from_parts(record, weights, window);
    refused(e, Error::Record, |e| {
        e.equalize(&x, &mut y[..6], &mut m, &mut n[..4])
    });
    refused(e, Error::Odd, |e| {
        e.equalize(&x, &mut y[..7], &mut m, &mut n[..4])
    });
    assert_eq!((y, m, n), (vec![5.0; 9], vec![5; 9], vec![5; 9]));
}

/// 13 comes without lengths, after 1, 8, 9 and 10.
#[test]
fn numbers_of_another_length() {
    let x = samples(2);
    let (mut y, mut m, mut n) = (vec![5.0; 5], vec![5; 4], vec![5; 4]);
    let e = &mut qpsk();
    for calls in [Equalizer::equalize, Equalizer::reference] {
        for count in [3, 1, 0, 4] {
            refused(e, Error::Numbers, |e| {
                calls(e, &x, &mut y[..4], &mut m[..2], &mut n[..count])
            });
        }
        refused(e, Error::Numbers, |e| {
            calls(e, &[], &mut [], &mut [], &mut n[..1])
        });
        calls(e, &[], &mut [], &mut [], &mut []).unwrap();
        assert_eq!(*e, qpsk());
        let (expected, got) = (2, 1);
        refused(e, Error::Marks { expected, got }, |e| {
            calls(e, &x, &mut y[..4], &mut m[..1], &mut n[..3])
        });
        refused(e, Error::Output { expected, got }, |e| {
            calls(e, &x, &mut y[..2], &mut m[..2], &mut n[..3])
        });
        refused(e, Error::Odd, |e| {
            calls(e, &x, &mut y[..5], &mut m[..2], &mut n[..3])
        });
        let (mut record, weights, window) = e.clone().into_parts();
        record.count = 1001;
        let e = &mut Equalizer::from_parts(record, weights, window);
        refused(e, Error::Record, |e| {
            calls(e, &x, &mut y[..4], &mut m[..2], &mut n[..3])
        });
    }
    assert_eq!((y, m, n), (vec![5.0; 5], vec![5; 4], vec![5; 4]));
}

#[test]
fn parts_there_and_back() {
    let mut e = Equalizer::new(
        15,
        Settings {
            feedback_taps: 5,
            ..Settings::default()
        },
    )
    .unwrap();
    run(&mut e, &samples(50));
    let (record, weights, window) = e.clone().into_parts();
    assert_eq!(
        (record, &weights[..], &window[..]),
        (e.record(), e.weights(), e.window())
    );
    let mut again = Equalizer::from_parts(record, weights, window);
    assert_eq!(again, e);
    assert_eq!(run(&mut again, &samples(50)), run(&mut e, &samples(50)));
}

#[test]
fn reset() {
    let mut e = qpsk();
    run(&mut e, &samples(1100));
    assert_ne!(e, qpsk());
    e.reset().unwrap();
    assert_eq!(e, qpsk());
    let (record, mut weights, window) = e.into_parts();
    weights.push(0.0);
    let e = &mut Equalizer::from_parts(record, weights.clone(), window.clone());
    refused(e, Error::Odd, Equalizer::reset);
    weights.push(0.0);
    let e = &mut Equalizer::from_parts(record, weights, window);
    refused(e, Error::Record, Equalizer::reset);
}

#[test]
fn setters() {
    let e = &mut qpsk();
    e.set_mu_cma(1.0).unwrap();
    e.set_mu_dd(0.00001).unwrap();
    assert_eq!((e.mu_cma(), e.mu_dd()), (1.0, 0.00001));
    refused(e, Error::MuCma, |e| e.set_mu_cma(1.5));
    refused(e, Error::MuDd, |e| e.set_mu_dd(f32::NAN));
    for (given, held) in [
        (0.01, 0.01),
        (0.2, 0.125),
        (-9.0, -0.125),
        (1e-31, 0.0),
        (f32::NAN, 0.0),
    ] {
        e.set_frequency(given);
        assert_eq!(e.frequency().to_bits(), f32::to_bits(held));
    }
    assert_eq!(run(e, &samples(1)).output, [0.0, 0.0]);
}

/// The reply of a new equalizer.
fn known() -> EqReply {
    unsafe {
        ffi::eq_new(
            raw_settings(1),
            [0.0; 6].as_mut_ptr(),
            6,
            [0.0; 6].as_mut_ptr(),
            6,
        )
    }
}

/// Numbers that stand for no constellation or mode, by the exported calls themselves.
#[test]
fn unknown_numbers() {
    let known = known();
    assert_eq!((known.number, known.record.settings), (0, raw_settings(1)));
    for bad in [5, u32::MAX] {
        let reply = |n, m| unsafe {
            ffi::eq_new(
                raw_settings(bad),
                [0.0; 9].as_mut_ptr(),
                n,
                [0.0; 9].as_mut_ptr(),
                m,
            )
        };
        assert_eq!(numbers(reply(6, 6)), (8, 0, 0));
        assert_eq!(numbers(reply(6, 9)), (1, 0, 0));
        assert_eq!(
            (reply(6, 6).record.settings.mu_cma, reply(6, 6).record.mse),
            (0.0, 0.0)
        );
        let mut constellation = known.record;
        constellation.settings.constellation = bad;
        unknown_record(constellation);
    }
    for bad in [2, u32::MAX] {
        unknown_record(EqRecord {
            mode: bad,
            ..known.record
        });
    }
}

fn raw_settings(constellation: u32) -> EqSettings {
    EqSettings {
        phase_bw: 0.02,
        feedback_taps: 0,
        constellation,
        mu_cma: 0.05,
        mu_dd: 0.02,
        cma_symbols: 1000,
    }
}

fn numbers(r: EqReply) -> (u32, usize, usize) {
    (r.number, r.expected, r.got)
}

fn unknown_record(r: EqRecord) {
    let eight = EqReply {
        record: r,
        number: 8,
        expected: 0,
        got: 0,
    };
    let one = EqReply { number: 1, ..eight };
    assert_eq!(ffi::eq_set_mu_cma(r, 7.0), eight);
    assert_eq!(ffi::eq_set_mu_dd(r, 7.0), eight);
    assert_eq!(ffi::eq_set_frequency(r, 0.0), eight);
    let (mut w, mut h) = ([3.0f32; 7], [3.0f32; 7]);
    let mut reset = |n, m| unsafe { ffi::eq_reset(r, w.as_mut_ptr(), n, h.as_mut_ptr(), m) };
    assert_eq!((reset(6, 6), reset(7, 6), reset(6, 7)), (eight, one, one));
    assert_eq!((w, h), ([3.0; 7], [3.0; 7]));
    let block = |n| refused_block(ffi::eq_reference, r, n);
    assert_eq!(block([6, 6, 6, 6, 3, 3]), eight);
    assert_eq!(block([6, 6, 6, 4, 7, 4]), eight);
    for odd in 0..4 {
        let mut n = [6, 6, 6, 6, 3, 4];
        n[odd] = 7;
        assert_eq!(block(n), one);
    }
}

/// What a call replies over slices of these counts, all of which it must leave.
fn refused_block(call: ffi::Block, r: EqRecord, n: [usize; 6]) -> EqReply {
    let (mut w, mut h, x, mut y) = ([3.0f32; 7], [3.0f32; 7], [3.0f32; 7], [3.0f32; 7]);
    let (mut marks, mut numbers) = ([3u8; 7], [3u8; 7]);
    let reply = unsafe {
        call(
            r,
            w.as_mut_ptr(),
            n[0],
            h.as_mut_ptr(),
            n[1],
            x.as_ptr(),
            n[2],
            y.as_mut_ptr(),
            n[3],
            marks.as_mut_ptr(),
            n[4],
            numbers.as_mut_ptr(),
            n[5],
        )
    };
    assert_eq!((w, h, y), ([3.0; 7], [3.0; 7], [3.0; 7]));
    assert_eq!((marks, numbers), ([3; 7], [3; 7]));
    reply
}

/// 9 and 10 reply two lengths, 13 none.
#[test]
fn lengths_of_a_reply() {
    let known = known();
    for call in [ffi::eq_equalize as ffi::Block, ffi::eq_reference] {
        let block = |n| refused_block(call, known.record, n);
        assert_eq!(numbers(block([6, 6, 6, 4, 3, 3])), (9, 3, 2));
        assert_eq!(numbers(block([6, 6, 6, 6, 4, 3])), (10, 3, 4));
        let thirteen = EqReply {
            number: 13,
            ..known
        };
        assert_eq!(block([6, 6, 6, 6, 3, 4]), thirteen);
    }
}
