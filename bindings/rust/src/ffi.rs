//! The exported calls, as crates/capi_c declares them, with the structs of crates/capi_numbers and
//! include/equalizer.h, which says what a caller must keep to. tests/header.rs holds the structs to
//! the header; nothing checks the calls' parameters: change all together.

/// [`Settings`](crate::Settings) as numbers.
#[repr(C)]
#[derive(Debug, Clone, Copy, PartialEq)]
pub struct EqSettings {
    /// Bandwidth of the phase tracker; 0 switches it off.
    pub phase_bw: f64,
    /// 0 to 63.
    pub feedback_taps: usize,
    /// The number of a [`Constellation`](crate::Constellation).
    pub constellation: u32,
    /// Step size of the blind mode.
    pub mu_cma: f32,
    /// Step size against decisions.
    pub mu_dd: f32,
    /// Samples in the blind mode; `u32::MAX`: all.
    pub cma_symbols: u32,
}

/// [`Record`](crate::Record) as numbers.
#[repr(C)]
#[derive(Debug, Clone, Copy, PartialEq)]
pub struct EqRecord {
    /// The settings.
    pub settings: EqSettings,
    /// A gain of the tracker, from the bandwidth.
    pub kp: f32,
    /// The other.
    pub ki: f32,
    /// The number of a [`Mode`](crate::Mode).
    pub mode: u32,
    /// Samples seen in the blind mode.
    pub count: u32,
    /// Mean error.
    pub mse: f32,
    /// A turn is 2^32.
    pub phase: u32,
    /// Turns per sample.
    pub freq: f32,
}

/// What a call replies.
#[repr(C)]
#[derive(Debug, Clone, Copy, PartialEq)]
pub struct EqReply {
    /// For the next call.
    pub record: EqRecord,
    /// 0 where the call was served, or the number of an [`Error`](crate::Error).
    pub number: u32,
    /// The first length of 4, 9 and 10; else 0.
    pub expected: usize,
    /// The second.
    pub got: usize,
}

/// A call over a block: the record, then weights, window, input, output, marks and numbers.
pub type Block = unsafe extern "C" fn(
    EqRecord,
    *mut f32,
    usize,
    *mut f32,
    usize,
    *const f32,
    usize,
    *mut f32,
    usize,
    *mut u8,
    usize,
    *mut u8,
    usize,
) -> EqReply;

unsafe extern "C" {
    /// Sets weights and window and replies a new record, all zeros where it is refused.
    pub fn eq_new(
        settings: EqSettings,
        weights: *mut f32,
        weights_count: usize,
        window: *mut f32,
        window_count: usize,
    ) -> EqReply;
    /// Back to the start, settings and gains kept.
    pub fn eq_reset(
        record: EqRecord,
        weights: *mut f32,
        weights_count: usize,
        window: *mut f32,
        window_count: usize,
    ) -> EqReply;
    /// Another step size of the blind mode.
    pub safe fn eq_set_mu_cma(record: EqRecord, mu: f32) -> EqReply;
    /// Another step size against decisions.
    pub safe fn eq_set_mu_dd(record: EqRecord, mu: f32) -> EqReply;
    /// The tracker's frequency.
    pub safe fn eq_set_frequency(record: EqRecord, freq: f32) -> EqReply;
    /// A block: a symbol, a mark and a number for each sample.
    pub fn eq_equalize(
        record: EqRecord,
        weights: *mut f32,
        weights_count: usize,
        window: *mut f32,
        window_count: usize,
        input: *const f32,
        input_count: usize,
        output: *mut f32,
        output_count: usize,
        marks: *mut u8,
        marks_count: usize,
        numbers: *mut u8,
        numbers_count: usize,
    ) -> EqReply;
    /// The same by the plain path.
    pub fn eq_reference(
        record: EqRecord,
        weights: *mut f32,
        weights_count: usize,
        window: *mut f32,
        window_count: usize,
        input: *const f32,
        input_count: usize,
        output: *mut f32,
        output_count: usize,
        marks: *mut u8,
        marks_count: usize,
        numbers: *mut u8,
        numbers_count: usize,
    ) -> EqReply;
}
