//! What goes wrong with bytes and buffers: a bit turned, a number out of place, a file cut or too long, room that does not fit.

use harness::random::Random;

use crate::cart::{ENTRY_WORDS, MOST_NODES, NODE_FLOATS, NODE_TREE, NODE_WORDS, ROUTE_BYTES};
use crate::files::Files;
use crate::lent::Lengths;

/// Numbers that mean something somewhere: none, the first ones, zeros, infinities, NaN, the limit and beside it.
const WORDS_OF_NOTE: [u32; 14] = [
    0, 1, 2, 3, 7, 8, 0xFFFF_FFFF, 0x8000_0000, 0x7F80_0000, 0xFF80_0000, 0x7FC0_0000, 0x4680_0000, 0x4680_0001, 0xC680_0000,
];

pub struct Damage {
    random: Random,
}

impl Damage {
    pub fn new(seed: u64) -> Damage {
        Damage { random: Random::new(seed) }
    }

    pub fn below(&mut self, limit: usize) -> usize {
        self.random.below(limit)
    }

    pub fn one_in(&mut self, many: usize) -> bool {
        self.random.below(many) == 0
    }

    /// One of the three files, now and then two.
    pub fn files(&mut self, files: &mut Files) {
        let which = [1, 2, 4, 1, 2, 4, 3, 6][self.below(8)];
        if which & 1 != 0 {
            self.bytes(&mut files.vertices, 8);
        }
        if which & 2 != 0 {
            self.bytes(&mut files.polygons, 64);
        }
        if which & 4 != 0 {
            self.bytes(&mut files.question, 16);
        }
    }

    pub fn route(&mut self, route: &[u8]) -> Vec<u8> {
        let mut damaged = route.to_vec();
        self.bytes(&mut damaged, 32);
        damaged
    }

    /// Records of a size.
    fn bytes(&mut self, bytes: &mut Vec<u8>, size: usize) {
        if bytes.len() < size {
            bytes.extend(vec![self.random.word() as u8; self.random.below(3 * size)]);
            return;
        }
        let (at, word) = (self.below(bytes.len()), 4 * self.below(bytes.len() / 4));
        let (from, to) = (size * self.below(bytes.len() / size), size * self.below(bytes.len() / size));
        match self.below(9) {
            0 => bytes[at] ^= 1 << self.below(8),
            1 => bytes[at] = self.random.word() as u8,
            2 | 3 => bytes[word..word + 4].copy_from_slice(&self.random.pick(&WORDS_OF_NOTE).to_le_bytes()),
            4 => bytes.copy_within(from..from + size, to),
            5 => bytes.truncate(at),
            6 => bytes.truncate(to),
            7 => bytes.extend(vec![0; 1 + self.random.below(2 * size)]),
            _ => bytes.extend_from_within(from..from + size),
        }
    }

    /// The budget, and the lengths of the lent buffers: often enough, else small, misfit, or none.
    pub fn lends(&mut self) -> (usize, Lengths) {
        let places = match self.below(8) {
            0 => self.below(3),
            1 => self.below(40),
            2 => MOST_NODES - 6 + self.below(12),
            _ => 600,
        };
        let budget = match self.below(6) {
            0 => self.below(5),
            1 => usize::MAX - self.below(2),
            _ => 4096,
        };
        let out = if self.one_in(4) { self.below(300) } else { ROUTE_BYTES };
        let [floats, words, tree] = [NODE_FLOATS, NODE_WORDS, NODE_TREE].map(|size| self.about(size * places, size));
        let entries = if self.one_in(4) { self.below(30) } else { places };
        let table = self.about(ENTRY_WORDS * entries, ENTRY_WORDS);
        (budget, Lengths { floats, words, tree, table, out })
    }

    /// So many cells, or some more or fewer.
    fn about(&mut self, cells: usize, size: usize) -> usize {
        let mut some = || if self.one_in(3) { self.below(size + 3) } else { 0 };
        (cells + some()).saturating_sub(some())
    }
}
