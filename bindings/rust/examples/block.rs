//! A block with a lost sample, and a refusal: cargo run --offline --example block
use equalizer::{Equalizer, Error, Settings};

fn main() -> Result<(), Error> {
    let mut e = Equalizer::new(11, Settings::default())?;
    let mut input = [0.7f32; 40];
    input[20] = f32::NAN;
    let (mut output, mut marks, mut numbers) = ([0.0; 40], [0; 20], [0; 20]);
    e.equalize(&input, &mut output, &mut marks, &mut numbers)?;
    println!("count {}, mean error {:.4}", e.count(), e.mse());
    println!("marks {marks:?}");
    println!("numbers {numbers:?}");
    if let Err(r) = e.equalize(&input, &mut output[..38], &mut marks, &mut numbers) {
        println!("{r}");
    }
    Ok(())
}
