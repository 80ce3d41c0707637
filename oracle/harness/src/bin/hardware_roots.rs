//! Writes the processor's own root of every pattern in every PARTS-th block of 65,536, from block PART on.
//! Built for the machine at hand, so that no emulator has a say in it.

use std::io::{self, Write};

fn main() -> io::Result<()> {
    let numbers: Vec<u32> = std::env::args().skip(1).map(|word| word.parse().expect("PART PARTS")).collect();
    let [part, parts] = numbers[..] else { panic!("usage: hardware_roots PART PARTS") };
    let mut out = io::stdout().lock();
    let mut bytes = Vec::with_capacity(4 << 16);
    for block in (part..1 << 16).step_by(parts as usize) {
        bytes.clear();
        for low in 0..1 << 16 {
            let root = f32::from_bits(block << 16 | low).sqrt();
            bytes.extend_from_slice(&root.to_bits().to_le_bytes());
        }
        out.write_all(&bytes)?;
    }
    Ok(())
}
