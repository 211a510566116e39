//! Reads a reading of a few bytes, sets its offset, and writes it.
use readings::{Reading, Refusal, state};

fn main() -> Result<(), Refusal> {
    let bytes = [0x0A, 3, b'r', b'o', b'f', 0x18, 4, 0x20, 7];
    let mut reading = Reading::read(&bytes)?;
    println!("{}, broken: {}", reading.sensor(), reading.state() == state::BROKEN);
    reading.set_offset(Some(-1));
    println!("{:02X?}", reading.to_vec());
    Ok(())
}
