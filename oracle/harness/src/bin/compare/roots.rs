//! Every root there is, against the processor's own. Those come through a pipe from a program of their own, in which nothing else
//! is. Each thread takes every so many-th block of 65,536.

use std::io::Read;
use std::process::{Command, Stdio};
use std::thread;
use std::time::Instant;

use harness::answer::one_nan;

use crate::{ours, Sum, SHOWN};

/// Prints what differs, and the count.
pub fn compare(threads: usize, hardware_roots: &str) -> Sum {
    let start = Instant::now();
    let mut sum = Sum::default();
    thread::scope(|scope| {
        let part = |part| scope.spawn(move || compare_part(part, threads, hardware_roots));
        let workers: Vec<_> = (0..threads).map(part).collect();
        for worker in workers {
            sum += worker.join().expect("a thread ended early");
        }
    });
    let seconds = start.elapsed().as_secs();
    println!("{} roots compared with this processor's own in {seconds} seconds, {} differ", sum.compared, sum.differ);
    sum
}

fn compare_part(part: usize, parts: usize, hardware_roots: &str) -> Sum {
    let mut child = Command::new(hardware_roots)
        .args([part.to_string(), parts.to_string()])
        .stdout(Stdio::piped())
        .spawn()
        .expect("hardware_roots does not start");
    let mut hardware = child.stdout.take().expect("a pipe");
    let mut bytes = vec![0; 4 << 16];
    let mut sum = Sum::default();
    for block in (part..1 << 16).step_by(parts) {
        hardware.read_exact(&mut bytes).expect("the hardware's roots ended early");
        sum += compare_block(block as u32, &bytes, SHOWN.saturating_sub(sum.differ));
    }
    child.wait().expect("hardware_roots has ended");
    sum
}

fn compare_block(block: u32, hardware: &[u8], shown: usize) -> Sum {
    let mut sum = Sum { compared: hardware.len() / 4, differ: 0 };
    for (pattern, word) in (block << 16..).zip(hardware.chunks_exact(4)) {
        let theirs = u32::from_le_bytes([word[0], word[1], word[2], word[3]]);
        let root = ours::root(pattern);
        if one_nan(theirs) != one_nan(root) {
            sum.differ += 1;
            if sum.differ <= shown {
                println!("  root({pattern:08X})\n    hardware: {theirs:08X}\n    ours: {root:08X}");
            }
        }
    }
    sum
}
