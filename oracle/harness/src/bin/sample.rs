//! Writes a fixed list of the original's answers to standard output, for tests that have no Rust at hand.
//! A record is twelve little-endian words: function number, eight inputs, tag, two words of the answer.

use std::collections::HashSet;
use std::io::{self, Write};

use harness::answer::{is_nan, Answer};
use harness::functions::{Function, Input, FUNCTIONS};
use harness::inputs::{Draw, Kind, RANDOM_KINDS};

/// Records of one function and one kind of input.
const RECORDS: usize = 40;
/// Inputs to choose them from.
const DRAWN: usize = 1 << 14;

type Sample = (Input, Answer);

fn main() -> io::Result<()> {
    let mut out = io::BufWriter::new(io::stdout().lock());
    for (place, function) in FUNCTIONS.iter().enumerate().filter(|(_, function)| function.number != 0) {
        let mut taken = HashSet::new();
        for kind in [Kind::Special].into_iter().chain(RANDOM_KINDS) {
            for (input, answer) in chosen(function, Draw::new(place, function.words, kind, 0), &mut taken) {
                write_record(&mut out, function.number, input, answer)?;
            }
        }
    }
    out.flush()
}

/// One of each sort of answer in turn, so that a rare one is there as often as a common one while it lasts.
fn chosen(function: &Function<Answer>, mut draw: Draw, taken: &mut HashSet<Input>) -> Vec<Sample> {
    let mut sorts: Vec<(Sort, Vec<Sample>)> = Vec::new();
    let mut seen = HashSet::new();
    for _ in 0..DRAWN {
        let input = draw.input();
        if taken.contains(&input) || !seen.insert(input) {
            continue;
        }
        let answer = (function.original)(&input);
        match sorts.iter_mut().find(|(sort, _)| *sort == sort_of(answer)) {
            Some((_, samples)) => samples.push((input, answer)),
            None => sorts.push((sort_of(answer), vec![(input, answer)])),
        }
    }
    let in_turn = (0..DRAWN).flat_map(|turn| sorts.iter().filter_map(move |(_, samples)| samples.get(turn)));
    let chosen: Vec<Sample> = in_turn.take(RECORDS).copied().collect();
    taken.extend(chosen.iter().map(|(input, _)| input));
    chosen
}

/// Its tag, and whether its first float is NaN.
type Sort = (u32, bool);

fn sort_of(answer: Answer) -> Sort {
    (answer.tag, is_nan(answer.words[0]))
}

fn write_record(out: &mut impl Write, number: u32, input: Input, answer: Answer) -> io::Result<()> {
    out.write_all(&number.to_le_bytes())?;
    for word in input[..8].iter().chain([&answer.tag]).chain(&answer.words[..2]) {
        out.write_all(&word.to_le_bytes())?;
    }
    Ok(())
}
