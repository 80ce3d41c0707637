//! Every function on the grid and on the random inputs, the work shared out in chunks among threads.

use std::fmt::Display;

use harness::chunks::counted;
use harness::functions::{Function, Input, FUNCTIONS, WALK};
use harness::inputs::{grid_input, grid_size, grid_values, Draw, Kind};

use crate::{ours, search, steps, Sum, SHOWN};

const CHUNK: usize = 1 << 16;
/// Picks from all special values, for the functions whose grid takes only a few of them.
const SPECIAL_CHUNKS: usize = 16;

/// Inputs that one thread takes at a time.
enum Chunk {
    Grid { from: usize, to: usize },
    Random { kind: Kind, number: usize },
}

struct Difference<A> {
    chunk: usize,
    input: Input,
    original: A,
    ours: A,
}

struct Counts<A> {
    grid: usize,
    random: usize,
    /// Left out, since document 01 parts from the original there.
    listed: usize,
    differ: usize,
    /// The first few.
    differences: Vec<Difference<A>>,
}

impl<A> Default for Counts<A> {
    fn default() -> Counts<A> {
        Counts { grid: 0, random: 0, listed: 0, differ: 0, differences: Vec::new() }
    }
}

/// Prints a line a function: each that ONLY names, or all.
pub fn compare(threads: usize) -> Sum {
    let names: Vec<&str> = FUNCTIONS.iter().map(|function| function.name).chain([WALK.name, steps::NAME, search::NAME]).collect();
    let only = std::env::var("ONLY").unwrap_or(names.join(" "));
    let only: Vec<&str> = only.split_whitespace().collect();
    for name in &only {
        assert!(names.contains(name), "ONLY: no function {name} is compared; there are {}", names.join(", "));
    }
    println!("{:<24}{:>12}{:>12}{:>12}", "function", "grid", "random", "differ");
    let mut sum = Sum::default();
    for (place, function) in FUNCTIONS.iter().enumerate().filter(|(_, function)| only.contains(&function.name)) {
        sum += compare_function(place, function, ours::called(function.name), threads);
    }
    if only.contains(&WALK.name) {
        sum += compare_function(FUNCTIONS.len(), &WALK, ours::walk, threads);
    }
    if only.contains(&steps::NAME) {
        sum += steps::compare(threads);
    }
    if only.contains(&search::NAME) {
        sum += search::compare(threads);
    }
    sum
}

fn compare_function<A: Display + PartialEq + Send>(place: usize, function: &Function<A>, ours: fn(&Input) -> A, threads: usize) -> Sum {
    let counts = count(place, function, ours, threads);
    println!("{:<24}{:>12}{:>12}{:>12}", function.name, counts.grid, counts.random, counts.differ);
    if counts.listed != 0 {
        println!("  {} more inputs of {} were left out: a listed difference", counts.listed, function.name);
    }
    for difference in &counts.differences {
        print_difference(function, difference);
    }
    Sum { compared: counts.grid + counts.random, differ: counts.differ }
}

fn count<A: PartialEq + Send>(place: usize, function: &Function<A>, ours: fn(&Input) -> A, threads: usize) -> Counts<A> {
    let chunks = chunks_of(function);
    let mut all = Counts::default();
    for counts in counted(threads, chunks.len(), |chunk, counts| compare_chunk(place, function, ours, chunk, &chunks[chunk], counts)) {
        all.grid += counts.grid;
        all.random += counts.random;
        all.listed += counts.listed;
        all.differ += counts.differ;
        all.differences.extend(counts.differences);
    }
    // Each thread took its chunks in order and kept its first, so the first of all are among them.
    all.differences.sort_by_key(|difference| difference.chunk);
    all.differences.truncate(SHOWN);
    all
}

fn chunks_of<A>(function: &Function<A>) -> Vec<Chunk> {
    let grid = grid_size(function.words);
    let mut chunks: Vec<Chunk> =
        (0..grid).step_by(CHUNK).map(|from| Chunk::Grid { from, to: grid.min(from + CHUNK) }).collect();
    let specials = if function.words > 4 { SPECIAL_CHUNKS } else { 0 };
    chunks.extend((0..specials).map(|number| Chunk::Random { kind: Kind::Special, number }));
    for &kind in function.kinds {
        chunks.extend((0..function.chunks).map(|number| Chunk::Random { kind, number }));
    }
    chunks
}

fn compare_chunk<A: PartialEq>(
    place: usize,
    function: &Function<A>,
    ours: fn(&Input) -> A,
    chunk: usize,
    inputs: &Chunk,
    counts: &mut Counts<A>,
) {
    let mut listed = 0;
    let mut compare_one = |input: Input| {
        if (function.listed)(&input) {
            listed += 1;
            return;
        }
        let (original, ours) = ((function.original)(&input), ours(&input));
        if original != ours {
            counts.differ += 1;
            if counts.differences.len() < SHOWN {
                counts.differences.push(Difference { chunk, input, original, ours });
            }
        }
    };
    match *inputs {
        Chunk::Grid { from, to } => {
            let values = grid_values(function.words);
            (from..to).for_each(|number| compare_one(grid_input(&values, function.words, number)));
            counts.grid += to - from - listed;
        }
        Chunk::Random { kind, number } => {
            let mut draw = Draw::new(place, function.words, kind, number);
            (0..CHUNK).for_each(|_| compare_one(draw.input()));
            // Picks from the special values are the rest of the grid.
            let count = if kind == Kind::Special { &mut counts.grid } else { &mut counts.random };
            *count += CHUNK - listed;
        }
    }
    counts.listed += listed;
}

fn print_difference<A: Display>(function: &Function<A>, difference: &Difference<A>) {
    let words: Vec<String> = difference.input[..function.words].iter().map(|word| format!("{word:08X}")).collect();
    println!("  {}({})", function.name, words.join(" "));
    println!("    Rust: {}", difference.original);
    println!("    ours: {}", difference.ours);
}
