//! Compares our static library with the original: `compare THREADS HARDWARE_ROOTS [EMULATOR]`, with the path of the program
//! hardware_roots (or the word no, or time for the time of a root alone) and, where this one is emulated, what emulates it.
//! The environment's ONLY names the functions to compare; without it all are.

use std::process::ExitCode;

mod cart; // include/cart.rs, which build.sh lays here.
mod functions;
mod lengths;
mod lent;
mod ours;
mod roots;
mod search;
mod steps;
mod time;

/// How many inputs were compared, and on how many the answers differ.
#[derive(Clone, Copy, Default)]
struct Sum {
    compared: usize,
    differ: usize,
}

impl std::ops::AddAssign for Sum {
    fn add_assign(&mut self, other: Sum) {
        self.compared += other.compared;
        self.differ += other.differ;
    }
}

/// Differences that are shown of each function.
const SHOWN: usize = 3;

fn main() -> ExitCode {
    let words: Vec<String> = std::env::args().skip(1).collect();
    let threads = words[0].parse().expect("THREADS");
    let mut sum = functions::compare(threads);
    match words[1].as_str() {
        "no" | "time" => println!("all roots: left out"),
        program => sum += roots::compare(threads, program),
    }
    if words[1] != "no" {
        time::print();
    }
    println!("{} compared, {} differ", sum.compared, sum.differ);
    ExitCode::from((sum.differ != 0) as u8)
}
