//! The inputs: a grid over special values, and random ones of several kinds.

use crate::functions::{Input, CORNERS, ENTRY};
use crate::random::Random;

mod polygons;
mod wedges;

const SIGN: u32 = 0x8000_0000;
const ONE: u32 = 0x3F80_0000;
/// Document 01's limit for a coordinate.
const LIMIT: u32 = 0x4680_0000;
/// f32 1e-4, the EPSILON of helpers.rs.
const EPSILON: u32 = 0x38D1_B717;
/// f32 1e-6, in_bounding_box's own EPSILON.
const BOX_EPSILON: u32 = 0x3586_37BD;
const LARGEST: u32 = 0x7F7F_FFFF;
const INFINITY: u32 = 0x7F80_0000;
const NAN: u32 = 0x7FC0_0000;

/// Magnitudes at which some operation changes its manner; each is taken with both signs.
const SPECIAL_MAGNITUDES: [u32; 20] = [
    0,
    1,           // the smallest subnormal
    0x007F_FFFF, // the largest subnormal
    0x0080_0000, // the smallest normal
    ONE - 1,
    ONE,
    ONE + 1,
    LIMIT,
    LIMIT + 1,
    LARGEST,
    EPSILON - 1,
    EPSILON,
    EPSILON + 1,
    BOX_EPSILON - 1,
    BOX_EPSILON,
    BOX_EPSILON + 1,
    INFINITY,
    INFINITY + 1, // a signalling NaN
    NAN,
    0x7FFF_FFFF,
];

pub fn special() -> Vec<u32> {
    let both = |&magnitude: &u32| [magnitude, SIGN | magnitude];
    SPECIAL_MAGNITUDES.iter().flat_map(both).collect()
}

/// The values whose full product is the grid: all special ones while the product stays within millions, else a few.
pub fn grid_values(words: usize) -> Vec<u32> {
    let half = 0x3F00_0000;
    match words {
        24 => vec![0, ONE, SIGN | ONE],
        10 => vec![0, ONE, SIGN | ONE, NAN],
        8 => vec![0, SIGN, ONE, SIGN | ONE, EPSILON, NAN],
        6 => vec![0, SIGN, ONE, SIGN | ONE, half, EPSILON, LIMIT, LARGEST, INFINITY, NAN],
        _ => special(),
    }
}

/// How many words the grid fills: all, and of a walk those of a triangle.
fn grid_words(words: usize) -> usize {
    words.min(12)
}

pub fn grid_size(words: usize) -> usize {
    grid_values(words).len().pow(grid_words(words) as u32)
}

/// The input of the grid with this number, below its size.
pub fn grid_input(values: &[u32], words: usize, number: usize) -> Input {
    let mut input = [0; 24];
    let mut rest = number;
    for word in &mut input[..grid_words(words)] {
        *word = values[rest % values.len()];
        rest /= values.len();
    }
    if words > grid_words(words) {
        input[CORNERS] = 3;
        input[ENTRY] = number as u32 % 3;
    }
    input
}

#[derive(Clone, Copy, Debug, PartialEq)]
pub enum Kind {
    /// Each word picked from the special values.
    Special,
    /// Any bit patterns.
    Raw,
    /// Anywhere on a floor.
    Floor,
    /// Small whole numbers and halves: many lines are parallel or cross exactly.
    Small,
    /// So close together that areas lie about EPSILON.
    Tiny,
    /// Every magnitude from 2^-24 to 2^14 alike.
    Scaled,
    /// A point within a few floats of the line through two others.
    Near,
    /// Points that coincide: ends equal to the point, segments without length.
    Same,
    /// A coordinate EPSILON or BOX_EPSILON beside another one, give or take a few floats.
    Beside,
    /// A root and an interval that it looks through; what it sees lies behind, partly or wholly in view.
    Wedge,
    /// A wedge whose two rays are a few floats apart, or none.
    Thin,
    /// The root on an end of its interval, or about as far from it as the clip's slack.
    OnEnd,
    /// A point as far from another, or from a ray, as the function's own limit, give or take a few floats:
    /// the clip's 0.01, the landing's 0.002, the 1e-3 about a corner within which the walk passes a cut over.
    Limit,
}

pub const RANDOM_KINDS: [Kind; 8] =
    [Kind::Raw, Kind::Floor, Kind::Small, Kind::Tiny, Kind::Scaled, Kind::Near, Kind::Same, Kind::Beside];

/// Draws inputs of one kind for a function of so many words.
pub struct Draw {
    kind: Kind,
    words: usize,
    /// How many of the words are floats: for a walk it differs from one to the next.
    floats: usize,
    special: Vec<u32>,
    random: Random,
}

impl Draw {
    /// The same inputs for the same function, kind and number.
    pub fn new(function: usize, words: usize, kind: Kind, number: usize) -> Draw {
        let seed = (function as u64) << 48 | (kind as u64) << 40 | number as u64;
        Draw { kind, words, floats: words, special: special(), random: Random::new(seed) }
    }

    pub fn input(&mut self) -> Input {
        match self.words {
            24 => self.walk(),
            10 => self.clip(),
            6 if self.kind == Kind::Limit => self.landing(),
            _ => self.points(),
        }
    }

    /// Of the kinds that any function takes.
    fn points(&mut self) -> Input {
        match self.kind {
            Kind::Near => self.near(),
            Kind::Same => self.same(),
            Kind::Beside => self.beside(),
            plain => self.words_of(plain),
        }
    }

    fn words_of(&mut self, kind: Kind) -> Input {
        let mut input = [0; 24];
        for at in 0..self.floats {
            input[at] = self.word_of(kind);
        }
        input
    }

    fn word_of(&mut self, kind: Kind) -> u32 {
        let random = &mut self.random;
        let coordinate = match kind {
            Kind::Special => return random.pick(&self.special),
            Kind::Floor => 32_768.0 * random.fraction() - 16_384.0,
            Kind::Small => (random.below(33) as f32 - 16.0) / 2.0,
            Kind::Tiny => (random.fraction() - 0.5) / 32.0,
            Kind::Scaled => return random.word() % 2 * SIGN | (103 << 23) + random.below(38 << 23) as u32,
            _ => return random.word(),
        };
        coordinate.to_bits()
    }

    /// Ordinary coordinates to begin from.
    fn ordinary(&mut self) -> Input {
        let kind = self.random.pick(&[Kind::Floor, Kind::Small, Kind::Tiny, Kind::Scaled]);
        self.words_of(kind)
    }

    /// One point is laid on the line through two others: at, between or beside their ends, and about
    /// where line_intersect_segment stops counting a crossing. With two points the origin is the third.
    fn near(&mut self) -> Input {
        let mut input = self.ordinary();
        let points = self.floats / 2;
        if points < 2 {
            input[1] = self.few_floats_off(input[0]);
            return self.trimmed(input);
        }
        let moved = self.random.below(points);
        let from = (moved + 1 + self.random.below(points - 1)) % points;
        let next = (from + 1) % points;
        let to = if next == moved { (next + 1) % points } else { next };
        let time = match self.random.below(8) {
            0 => 0.0,
            1 => 1.0,
            2 => -f32::from_bits(EPSILON),
            3 => 1.0 + f32::from_bits(EPSILON),
            _ => 2.0 * self.random.fraction() - 0.5,
        };
        for axis in 0..2 {
            let start = f32::from_bits(input[2 * from + axis]);
            let end = if from == to { 0.0 } else { f32::from_bits(input[2 * to + axis]) };
            let on_line = start + time * (end - start);
            input[2 * moved + axis] = self.few_floats_off(on_line.to_bits());
        }
        input
    }

    /// One point, or two, becomes a copy of another.
    fn same(&mut self) -> Input {
        let mut input = self.ordinary();
        let points = self.floats / 2;
        if points < 2 {
            input[1] = input[0] ^ self.random.word() & SIGN;
            return self.trimmed(input);
        }
        for _ in 0..=self.random.below(2) {
            let (from, to) = (self.random.below(points), self.random.below(points));
            input.copy_within(2 * from..2 * from + 2, 2 * to);
        }
        input
    }

    /// Two coordinates are laid an epsilon or nothing beside one another.
    fn beside(&mut self) -> Input {
        let mut input = self.ordinary();
        for _ in 0..2 {
            let (from, to) = (self.random.below(self.floats), self.random.below(self.floats));
            let step = self.random.pick(&[0, EPSILON, BOX_EPSILON]) | self.random.word() & SIGN;
            let beside = f32::from_bits(input[from]) + f32::from_bits(step);
            input[to] = self.few_floats_off(beside.to_bits());
        }
        input
    }

    /// The float itself, or one of the three on either side of it.
    fn few_floats_off(&mut self, bits: u32) -> u32 {
        let (sign, magnitude) = (bits & SIGN, bits & !SIGN);
        sign | (magnitude + self.random.below(7) as u32).saturating_sub(3)
    }

    /// Without the words that the function does not take.
    fn trimmed(&self, mut input: Input) -> Input {
        input[self.floats..].fill(0);
        input
    }
}
