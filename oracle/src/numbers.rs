//! The number of the point that a symbol is decided to. The Rust has it for QAM alone,
//! `decide_symbol`. Of the others it is the place of the Rust's own point in a list, which stands in
//! the order of the specification's words.

use crate::kernels::constellation::Qam;
use crate::kernels::costas::{C8, S8};
use crate::kernels::equalize::{EqConstellation, QPSK_A as A};
use crate::types::C32;

/// What a sample has whose mark is not 0.
pub const NONE: u8 = 255;

/// 1 if the real part is below 0.
const BPSK: [(f32, f32); 2] = [(1.0, 0.0), (-1.0, 0.0)];

/// 2 if the real part is below 0, and 1 more if the imaginary part is.
const QPSK: [(f32, f32); 4] = [(A, A), (A, -A), (-A, A), (-A, -A)];

/// 0 to 7 counter-clockwise.
pub const PSK8: [(f32, f32); 8] = [
    (C8, S8),
    (S8, C8),
    (-S8, C8),
    (-C8, S8),
    (-C8, -S8),
    (-S8, -C8),
    (S8, -C8),
    (C8, -S8),
];

/// The place of a point, which must be in the list to the bit.
pub fn place(points: &[(f32, f32)], (re, im): (f32, f32)) -> u8 {
    let parts = |(re, im): (f32, f32)| (re.to_bits(), im.to_bits());
    let found = points.iter().position(|&p| parts(p) == parts((re, im)));
    found.expect("the Rust decides to a point of the list") as u8
}

/// The Rust's own number, whose point must be the one that it decides to.
pub fn symbol(qam: Qam, z: C32) -> u32 {
    let (symbol, d) = (qam.decide_symbol(z), qam.decide(z));
    let p = qam.point(symbol);
    let agree = (p.re.to_bits(), p.im.to_bits()) == (d.re.to_bits(), d.im.to_bits());
    assert!(agree, "the Rust's number and point of a symbol differ");
    symbol
}

/// The number of any symbol.
pub fn number(k: EqConstellation, z: C32) -> u8 {
    let d = k.decide(z);
    match k {
        EqConstellation::Bpsk => place(&BPSK, (d.re, d.im)),
        EqConstellation::Qpsk => place(&QPSK, (d.re, d.im)),
        EqConstellation::Psk8 => place(&PSK8, (d.re, d.im)),
        EqConstellation::Qam16 => symbol(Qam::Qam16, z) as u8,
        EqConstellation::Qam64 => symbol(Qam::Qam64, z) as u8,
    }
}
