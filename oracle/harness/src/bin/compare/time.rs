//! How long a root takes, ours beside the processor's.

use std::hint::black_box;
use std::time::Instant;

use harness::random::Random;

use crate::ours;

const COUNT: usize = 1 << 22;
/// Roots that are timed at once. Of all such times the least counts: other programs lengthen some, and shorten none.
const TIMED: usize = 1 << 12;

fn nanoseconds(patterns: &[u32], root: impl Fn(u32) -> u32) -> f64 {
    let of_part = |part: &[u32]| {
        let start = Instant::now();
        for &pattern in part {
            black_box(root(black_box(pattern)));
        }
        start.elapsed().as_secs_f64() * 1e9 / part.len() as f64
    };
    patterns.chunks_exact(TIMED).map(of_part).fold(f64::INFINITY, f64::min)
}

/// Prints the time of a call, over positive normal floats of every magnitude alike.
pub fn print() {
    let mut random = Random::new(1);
    let patterns: Vec<u32> = (0..COUNT).map(|_| 0x0080_0000 + random.below(0x7F00_0000) as u32).collect();
    let ours = nanoseconds(&patterns, ours::root);
    let theirs = nanoseconds(&patterns, |bits| f32::from_bits(bits).sqrt().to_bits());
    println!("nanoseconds a call: geometry_root {ours:.1}, f32::sqrt {theirs:.1}");
}
