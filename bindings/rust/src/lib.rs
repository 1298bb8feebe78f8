//! The adaptive equalizer: a safe type, [`Equalizer`], that owns its weights and window and calls
//! the proved library. All tests, all arithmetic and all refusals are the library's.
//!
//! Samples are interleaved `f32`, real part first.
//!
//! - Refusals: a refused call leaves the equalizer and all slices as they came. [`Error`] says why.
//! - Threads: the library has no global state. An `Equalizer` is `Send` and `Sync`, and different
//!   ones may be called at once.
//! - Delay: the symbol of sample i belongs to the sample (forward taps - 1) / 2 earlier, that of the
//!   centre tap; its number goes with the symbol, its mark belongs to sample i itself.
//! - Level: the points of each constellation have mean power 1. Bring the input near that level.

#![warn(missing_docs)]

pub mod ffi;

use ffi::{EqRecord, EqReply, EqSettings};

/// The mark of a sample that was heard: none of the four below fits, and its symbol is finite. They
/// are tried in their order.
pub const HEARD: u8 = 0;
/// Of one that is not finite. Its symbol is (0, 0).
pub const BLANK: u8 = 1;
/// Of one that is finite where its filter sum is not. Its symbol is (0, 0).
pub const SPILLED: u8 = 2;
/// Of one whose forward window has power 0: nothing adapts. Its symbol need not be zero or finite.
pub const SILENT: u8 = 3;
/// Of one whose symbol has a part that is not finite.
pub const OFF_SCALE: u8 = 4;

/// The number of a symbol whose mark is not [`HEARD`]. Of any other it is that of the point it is
/// decided to: see [`Constellation`].
pub const NO_NUMBER: u8 = 255;

/// The constellation, with its number. Its points have mean power 1. Each says the number of a point
/// too; levels are counted from the lowest, 0, and g is their Gray code.
#[derive(Debug, Clone, Copy, PartialEq, Eq)]
pub enum Constellation {
    /// (±1, 0). The number is 1 if the real part is below 0, else 0.
    Bpsk = 0,
    /// (±A, ±A), A being 1 / sqrt 2. The number is 2 if the real part is below 0, plus 1 if the
    /// imaginary part is below 0.
    Qpsk = 1,
    /// 8-PSK: at odd sixteenths of a turn. The numbers are 0 to 7, counter-clockwise from the first.
    Psk8 = 2,
    /// 16-QAM: parts ±1 and ±3 over sqrt 10. The number is 4 g of the real part's level, plus g of
    /// the imaginary part's; g of the levels 0 to 3 is 0 1 3 2.
    Qam16 = 3,
    /// 64-QAM: parts ±1, ±3, ±5 and ±7 over sqrt 42. The number is 8 g of the real part's level, plus
    /// g of the imaginary part's; g of the levels 0 to 7 is 0 1 3 2 6 7 5 4.
    Qam64 = 4,
}

/// The mode, with its number.
#[derive(Debug, Clone, Copy, PartialEq, Eq)]
pub enum Mode {
    /// Blind, by the constant modulus.
    Cma = 0,
    /// Against the nearest point.
    Decision = 1,
}

/// The settings.
///
/// ```
/// use equalizer::{Constellation, Settings};
///
/// let s = Settings { constellation: Constellation::Qam16, feedback_taps: 4, ..Settings::default() };
/// assert_eq!((s.mu_cma, s.mu_dd, s.cma_symbols, s.phase_bw), (0.05, 0.02, 1000, 0.02));
/// ```
#[derive(Debug, Clone, Copy, PartialEq)]
pub struct Settings {
    /// What was sent.
    pub constellation: Constellation,
    /// 0 to 63.
    pub feedback_taps: usize,
    /// Step size of the blind mode, 0.00001 to 1.
    pub mu_cma: f32,
    /// Step size against decisions, 0.00001 to 1.
    pub mu_dd: f32,
    /// Samples in the blind mode; `u32::MAX`: all.
    pub cma_symbols: u32,
    /// Bandwidth of the phase tracker, 0.0001 to 0.2; 0 switches it off.
    pub phase_bw: f64,
}

impl Default for Settings {
    /// QPSK, no feedback taps.
    fn default() -> Self {
        Settings {
            constellation: Constellation::Qpsk,
            feedback_taps: 0,
            mu_cma: 0.05,
            mu_dd: 0.02,
            cma_symbols: 1000,
            phase_bw: 0.02,
        }
    }
}

/// The record: the settings and what runs along with the samples.
#[derive(Debug, Clone, Copy, PartialEq)]
pub struct Record {
    /// The settings.
    pub settings: Settings,
    /// A gain of the phase tracker, from the bandwidth.
    pub kp: f32,
    /// The other.
    pub ki: f32,
    /// The mode.
    pub mode: Mode,
    /// Samples seen in the blind mode.
    pub count: u32,
    /// Mean error.
    pub mse: f32,
    /// In 2^32nds of a turn.
    pub phase: u32,
    /// In turns per sample.
    pub freq: f32,
}

/// The refusals, 1 to 10 and 13 in this order. Lengths are in complex samples, of marks and numbers
/// in bytes.
///
/// ```
/// use equalizer::{Equalizer, Error, Settings};
///
/// let mut e = Equalizer::new(11, Settings::default())?;
/// let why = e.equalize(&[0.7; 40], &mut [0.0; 38], &mut [0; 20], &mut [0; 20]).unwrap_err();
/// assert_eq!(why, Error::Output { expected: 20, got: 19 });
/// assert_eq!(why.number(), 9);
/// assert_eq!(
///     why.to_string(),
///     "refused, number 9: the output's length is not the input's: 20 expected, 19 given"
/// );
/// # Ok::<(), Error>(())
/// ```
#[derive(Debug, Clone, Copy, PartialEq, Eq)]
pub enum Error {
    /// A complex slice has an odd count of f32.
    Odd,
    /// Over 63 feedback taps.
    Feedback,
    /// Forward taps even or outside 3 to 63, or fewer weights than feedback taps.
    Taps,
    /// The window's length is not the weights'.
    Window {
        /// The weights' length.
        expected: usize,
        /// The window's.
        got: usize,
    },
    /// `mu_cma` outside 0.00001 to 1.
    MuCma,
    /// `mu_dd` outside 0.00001 to 1.
    MuDd,
    /// The bandwidth is neither 0 nor 0.0001 to 0.2.
    Bandwidth,
    /// The record breaks a rule: only after [`Equalizer::from_parts`].
    Record,
    /// The output's length is not the input's.
    Output {
        /// The input's length.
        expected: usize,
        /// The output's.
        got: usize,
    },
    /// The marks' length is not the input's.
    Marks {
        /// The input's length.
        expected: usize,
        /// The marks'.
        got: usize,
    },
    /// The numbers' length is not the input's.
    Numbers,
    /// A number that none of these has.
    Unknown(u32),
}

impl Error {
    /// The number of the refusal: 1 to 10, 13, or one that is not known here.
    pub fn number(self) -> u32 {
        match self {
            Error::Odd => 1,
            Error::Feedback => 2,
            Error::Taps => 3,
            Error::Window { .. } => 4,
            Error::MuCma => 5,
            Error::MuDd => 6,
            Error::Bandwidth => 7,
            Error::Record => 8,
            Error::Output { .. } => 9,
            Error::Marks { .. } => 10,
            Error::Numbers => 13,
            Error::Unknown(number) => number,
        }
    }

    /// The words of `eq_strerror` in include/equalizer.h.
    fn words(self) -> &'static str {
        match self {
            Error::Odd => "a complex slice has an odd count of floats",
            Error::Feedback => "over 63 feedback taps",
            Error::Taps => {
                "forward taps even or outside 3 to 63, or fewer weights than feedback taps"
            }
            Error::Window { .. } => "the window's length is not the weights'",
            Error::MuCma => "mu_cma outside 0.00001 to 1",
            Error::MuDd => "mu_dd outside 0.00001 to 1",
            Error::Bandwidth => "the bandwidth is neither 0 nor 0.0001 to 0.2",
            Error::Record => {
                "the record breaks a rule, or a number of it stands for no constellation or mode"
            }
            Error::Output { .. } => "the output's length is not the input's",
            Error::Marks { .. } => "the marks' length is not the input's",
            Error::Numbers => "the numbers' length is not the input's",
            Error::Unknown(_) => "unknown number",
        }
    }
}

impl std::fmt::Display for Error {
    /// The number, the words and the two lengths, where there are some.
    fn fmt(&self, f: &mut std::fmt::Formatter<'_>) -> std::fmt::Result {
        write!(f, "refused, number {}: {}", self.number(), self.words())?;
        match self {
            Error::Window { expected, got }
            | Error::Output { expected, got }
            | Error::Marks { expected, got } => write!(f, ": {expected} expected, {got} given"),
            _ => Ok(()),
        }
    }
}

impl std::error::Error for Error {}

/// The record of a served call, or the refusal.
#[inline]
fn outcome(r: EqReply) -> Result<EqRecord, Error> {
    let EqReply {
        record,
        number,
        expected,
        got,
    } = r;
    Err(match number {
        0 => return Ok(record),
        1 => Error::Odd,
        2 => Error::Feedback,
        3 => Error::Taps,
        4 => Error::Window { expected, got },
        5 => Error::MuCma,
        6 => Error::MuDd,
        7 => Error::Bandwidth,
        8 => Error::Record,
        9 => Error::Output { expected, got },
        10 => Error::Marks { expected, got },
        13 => Error::Numbers,
        unknown => Error::Unknown(unknown),
    })
}

/// An equalizer with its weights and window. A refused call leaves it as it was.
///
/// ```
/// use equalizer::{BLANK, Equalizer, Error, NO_NUMBER, Settings};
///
/// let mut e = Equalizer::new(3, Settings::default())?;
/// let input = [0.7, 0.7, f32::NAN, 0.0, -0.7, 0.7, 0.7, -0.7]; // four samples, one of them lost
/// let (mut output, mut marks, mut numbers) = ([9.0; 8], [9; 4], [9; 4]);
/// e.equalize(&input, &mut output, &mut marks, &mut numbers)?;
/// assert_eq!(marks, [0, BLANK, 0, 0]);
/// assert_eq!(numbers, [0, NO_NUMBER, 0, 2]);
/// assert_eq!(output[2..4], [0.0, 0.0]);
/// assert_eq!(e.count(), 4);
/// # Ok::<(), Error>(())
/// ```
#[derive(Debug, Clone, PartialEq)]
pub struct Equalizer {
    record: EqRecord,
    weights: Vec<f32>,
    window: Vec<f32>,
}

impl Equalizer {
    /// An equalizer of `taps` forward taps. Refusals 2, 3, 5, 6 and 7.
    ///
    /// ```
    /// use equalizer::{Constellation, Equalizer, Error, Mode, Settings};
    ///
    /// let settings = Settings { constellation: Constellation::Psk8, feedback_taps: 5, ..Settings::default() };
    /// let e = Equalizer::new(15, settings)?;
    /// assert_eq!((e.taps(), e.feedback_taps(), e.mode()), (15, 5, Mode::Cma));
    /// assert_eq!(Equalizer::new(4, settings), Err(Error::Taps));
    /// # Ok::<(), Error>(())
    /// ```
    pub fn new(taps: usize, settings: Settings) -> Result<Self, Error> {
        // Room for all that is served; of more taps the library sees 65 or 64, which it refuses too.
        let n = taps.min(65) + settings.feedback_taps.min(64);
        Self::with_buffers(settings, vec![0.0; 2 * n], vec![0.0; 2 * n])
    }

    /// The same over buffers of the caller, whatever they hold: forward taps, then feedback taps.
    /// Refusals 1 to 7.
    pub fn with_buffers(
        settings: Settings,
        mut weights: Vec<f32>,
        mut window: Vec<f32>,
    ) -> Result<Self, Error> {
        let (w, h) = (&mut weights[..], &mut window[..]);
        // SAFETY: both slices are this function's own, and lent with their lengths.
        let reply = unsafe {
            ffi::eq_new(
                settings_out(settings),
                w.as_mut_ptr(),
                w.len(),
                h.as_mut_ptr(),
                h.len(),
            )
        };
        outcome(reply).map(|record| Equalizer {
            record,
            weights,
            window,
        })
    }

    /// An equalizer as another left off. Nothing is tested here: each call tests the record.
    pub fn from_parts(record: Record, weights: Vec<f32>, window: Vec<f32>) -> Self {
        Equalizer {
            record: record_out(record),
            weights,
            window,
        }
    }

    /// The record, the weights and the window.
    pub fn into_parts(self) -> (Record, Vec<f32>, Vec<f32>) {
        (self.record(), self.weights, self.window)
    }

    /// Back to the start, with the settings and gains kept. Refusals 1 and 8.
    pub fn reset(&mut self) -> Result<(), Error> {
        let (w, h) = (&mut self.weights[..], &mut self.window[..]);
        // SAFETY: as in `with_buffers`.
        let reply = unsafe {
            ffi::eq_reset(
                self.record,
                w.as_mut_ptr(),
                w.len(),
                h.as_mut_ptr(),
                h.len(),
            )
        };
        self.take(reply)
    }

    /// Another step size for Cma. Refusal 5.
    pub fn set_mu_cma(&mut self, mu: f32) -> Result<(), Error> {
        self.take(ffi::eq_set_mu_cma(self.record, mu))
    }

    /// Another step size for Decision. Refusal 6.
    pub fn set_mu_dd(&mut self, mu: f32) -> Result<(), Error> {
        self.take(ffi::eq_set_mu_dd(self.record, mu))
    }

    /// The tracker's frequency, held to its limits; a NaN is 0.
    pub fn set_frequency(&mut self, freq: f32) {
        let served = self.take(ffi::eq_set_frequency(self.record, freq));
        served.expect("this type's records have known numbers, and nothing else is refused");
    }

    /// A block: a symbol, a mark and a number for each sample. It may be empty, and the cut of a
    /// stream into blocks does not matter. Refusals 1, 8, 9, 10 and 13.
    #[inline]
    pub fn equalize(
        &mut self,
        input: &[f32],
        output: &mut [f32],
        marks: &mut [u8],
        numbers: &mut [u8],
    ) -> Result<(), Error> {
        self.block(ffi::eq_equalize, input, output, marks, numbers)
    }

    /// The same by the plain path, for comparison.
    #[inline]
    pub fn reference(
        &mut self,
        input: &[f32],
        output: &mut [f32],
        marks: &mut [u8],
        numbers: &mut [u8],
    ) -> Result<(), Error> {
        self.block(ffi::eq_reference, input, output, marks, numbers)
    }

    #[inline]
    fn block(
        &mut self,
        call: ffi::Block,
        x: &[f32],
        y: &mut [f32],
        m: &mut [u8],
        n: &mut [u8],
    ) -> Result<(), Error> {
        let (w, h) = (&mut self.weights[..], &mut self.window[..]);
        // SAFETY: six slices, lent with their lengths; those that are written are `&mut`, so none overlap.
        let reply = unsafe {
            call(
                self.record,
                w.as_mut_ptr(),
                w.len(),
                h.as_mut_ptr(),
                h.len(),
                x.as_ptr(),
                x.len(),
                y.as_mut_ptr(),
                y.len(),
                m.as_mut_ptr(),
                m.len(),
                n.as_mut_ptr(),
                n.len(),
            )
        };
        self.take(reply)
    }

    #[inline]
    fn take(&mut self, reply: EqReply) -> Result<(), Error> {
        self.record = outcome(reply)?;
        Ok(())
    }

    /// The whole record.
    pub fn record(&self) -> Record {
        record_in(self.record)
    }

    /// The settings.
    pub fn settings(&self) -> Settings {
        settings_in(self.record.settings)
    }

    /// The constellation.
    pub fn constellation(&self) -> Constellation {
        self.settings().constellation
    }

    /// The mode of the next sample.
    pub fn mode(&self) -> Mode {
        self.record().mode
    }

    /// Samples seen in the blind mode.
    pub fn count(&self) -> u32 {
        self.record.count
    }

    /// The mean error.
    pub fn mse(&self) -> f32 {
        self.record.mse
    }

    /// The tracker's phase, in 2^32nds of a turn.
    pub fn phase(&self) -> u32 {
        self.record.phase
    }

    /// The tracker's frequency, in turns per sample.
    pub fn frequency(&self) -> f32 {
        self.record.freq
    }

    /// The tracker's gains, kp and ki.
    pub fn phase_gains(&self) -> (f32, f32) {
        (self.record.kp, self.record.ki)
    }

    /// The step size of the blind mode.
    pub fn mu_cma(&self) -> f32 {
        self.record.settings.mu_cma
    }

    /// The step size against decisions.
    pub fn mu_dd(&self) -> f32 {
        self.record.settings.mu_dd
    }

    /// Samples in the blind mode; `u32::MAX`: all.
    pub fn cma_symbols(&self) -> u32 {
        self.record.settings.cma_symbols
    }

    /// The forward taps; 0 where there are fewer weights than feedback taps.
    pub fn taps(&self) -> usize {
        (self.weights.len() / 2).saturating_sub(self.feedback_taps())
    }

    /// The feedback taps.
    pub fn feedback_taps(&self) -> usize {
        self.record.settings.feedback_taps
    }

    /// Forward taps, then feedback taps.
    pub fn weights(&self) -> &[f32] {
        &self.weights
    }

    /// Forward window, then feedback window, newest first in each.
    pub fn window(&self) -> &[f32] {
        &self.window
    }
}

fn settings_out(s: Settings) -> EqSettings {
    EqSettings {
        phase_bw: s.phase_bw,
        feedback_taps: s.feedback_taps,
        constellation: s.constellation as u32,
        mu_cma: s.mu_cma,
        mu_dd: s.mu_dd,
        cma_symbols: s.cma_symbols,
    }
}

fn settings_in(s: EqSettings) -> Settings {
    Settings {
        constellation: match s.constellation {
            0 => Constellation::Bpsk,
            1 => Constellation::Qpsk,
            2 => Constellation::Psk8,
            3 => Constellation::Qam16,
            4 => Constellation::Qam64,
            _ => unreachable!("a record is made from a Settings and kept by the library"),
        },
        feedback_taps: s.feedback_taps,
        mu_cma: s.mu_cma,
        mu_dd: s.mu_dd,
        cma_symbols: s.cma_symbols,
        phase_bw: s.phase_bw,
    }
}

fn record_out(r: Record) -> EqRecord {
    EqRecord {
        settings: settings_out(r.settings),
        kp: r.kp,
        ki: r.ki,
        mode: r.mode as u32,
        count: r.count,
        mse: r.mse,
        phase: r.phase,
        freq: r.freq,
    }
}

fn record_in(r: EqRecord) -> Record {
    Record {
        settings: settings_in(r.settings),
        kp: r.kp,
        ki: r.ki,
        mode: match r.mode {
            0 => Mode::Cma,
            1 => Mode::Decision,
            _ => unreachable!("a record is made from a Record and kept by the library"),
        },
        count: r.count,
        mse: r.mse,
        phase: r.phase,
        freq: r.freq,
    }
}

#[cfg(test)]
mod tests {
    use super::*;

    /// The outcome of a reply with this number and the lengths 3 and 4.
    fn replied(number: u32) -> Result<EqRecord, Error> {
        let e = Equalizer::new(3, Settings::default()).unwrap();
        outcome(EqReply {
            record: e.record,
            number,
            expected: 3,
            got: 4,
        })
    }

    #[test]
    fn every_number() {
        assert!(replied(0).is_ok());
        let words = [
            "a complex slice has an odd count of floats",
            "over 63 feedback taps",
            "forward taps even or outside 3 to 63, or fewer weights than feedback taps",
            "the window's length is not the weights': 3 expected, 4 given",
            "mu_cma outside 0.00001 to 1",
            "mu_dd outside 0.00001 to 1",
            "the bandwidth is neither 0 nor 0.0001 to 0.2",
            "the record breaks a rule, or a number of it stands for no constellation or mode",
            "the output's length is not the input's: 3 expected, 4 given",
            "the marks' length is not the input's: 3 expected, 4 given",
            "the numbers' length is not the input's",
        ];
        for (number, words) in (1..=10).chain([13]).zip(words) {
            let e = replied(number).unwrap_err();
            assert_eq!(e.number(), number);
            assert!(!matches!(e, Error::Unknown(_)));
            assert_eq!(e.to_string(), format!("refused, number {number}: {words}"));
        }
        for number in [11, 12, 14, u32::MAX] {
            let e = replied(number).unwrap_err();
            assert_eq!((e, e.number()), (Error::Unknown(number), number));
            let said = format!("refused, number {number}: unknown number");
            assert_eq!(e.to_string(), said);
        }
    }

    /// The numbers of constellations and modes, out and in again.
    #[test]
    fn numbers_there_and_back() {
        let e = Equalizer::new(3, Settings::default()).unwrap();
        for number in 0..5 {
            let settings = EqSettings {
                constellation: number,
                ..e.record.settings
            };
            assert_eq!(settings_out(settings_in(settings)), settings);
        }
        for number in 0..2 {
            let record = EqRecord {
                mode: number,
                ..e.record
            };
            assert_eq!(record_out(record_in(record)), record);
        }
    }
}
