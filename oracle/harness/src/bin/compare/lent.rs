//! Buffers that are painted before a search, so that whatever it changed shows; and what it did, told so that ours and document
//! 01's can be compared.

// The programs of bench and campaign have this file too, and each takes its part.
#![allow(dead_code)]

use std::fmt;

use harness::search01::{self, Lends};

use crate::cart::{self, Answer, Floor, Work, ENTRY_WORDS, MOST_NODES, NODE_FLOATS, NODE_TREE, NODE_WORDS, ROUTE_BYTES};

/// What stands in a cell before a call.
pub const UNTOUCHED: u32 = 0x5EA1_F10E;
/// Cells behind what is lent.
pub const SPARE: usize = 8;

/// How many floats, words, words of the tree, words of the table and bytes of output are lent.
#[derive(Clone, Copy, PartialEq)]
pub struct Lengths {
    pub floats: usize,
    pub words: usize,
    pub tree: usize,
    pub table: usize,
    pub out: usize,
}

impl Lengths {
    pub const MOST: Lengths = Lengths::of(MOST_NODES, ROUTE_BYTES);

    /// As many entries as places.
    pub const fn of(places: usize, out: usize) -> Lengths {
        Lengths { floats: NODE_FLOATS * places, words: NODE_WORDS * places, tree: NODE_TREE * places, table: ENTRY_WORDS * places, out }
    }

    /// "N is the whole nodes that the lent work buffers hold, at most 4,096"
    pub fn places(&self) -> usize {
        (self.floats / NODE_FLOATS).min(self.words / NODE_WORDS).min(self.tree / NODE_TREE).min(MOST_NODES)
    }

    /// "Its entries are the whole ones lent"
    pub fn entries(&self) -> usize {
        (self.table / ENTRY_WORDS).min(MOST_NODES)
    }

    pub fn lends(&self, budget: usize) -> Lends {
        Lends { places: self.places(), entries: self.entries(), budget }
    }
}

pub struct Lent {
    floats: Vec<f32>,
    words: Vec<u32>,
    tree: Vec<u32>,
    table: Vec<u32>,
    out: Vec<u8>,
}

impl Default for Lent {
    fn default() -> Lent {
        Lent::new(&Lengths::MOST)
    }
}

impl Lent {
    /// Room to lend so much, or less.
    pub fn new(most: &Lengths) -> Lent {
        Lent {
            floats: vec![f32::from_bits(UNTOUCHED); most.floats + SPARE],
            words: vec![UNTOUCHED; most.words + SPARE],
            tree: vec![UNTOUCHED; most.tree + SPARE],
            table: vec![UNTOUCHED; most.table + SPARE],
            out: vec![UNTOUCHED as u8; most.out + SPARE],
        }
    }

    /// The answer, and the counted steps.
    pub fn search(&mut self, floor: Floor, question: &[u8], budget: usize, lengths: &Lengths) -> (Answer, usize) {
        let work = Work {
            floats: &mut self.floats[..lengths.floats],
            words: &mut self.words[..lengths.words],
            tree: &mut self.tree[..lengths.tree],
            table: &mut self.table[..lengths.table],
        };
        cart::search(floor, question, budget, work, &mut self.out[..lengths.out])
    }

    /// Searches on fresh paint, and looks what became of it.
    pub fn told(&mut self, floor: Floor, question: &[u8], budget: usize, lengths: &Lengths) -> Told {
        let (Answer { number, value }, steps) = self.search(floor, question, budget, lengths);
        let bytes = if number == 0 { value.map_or(0, |bytes| bytes.min(lengths.out)) } else { 0 };
        let route = self.out[..bytes].to_vec();
        let (table, behind) = self.table.split_at(ENTRY_WORDS * lengths.entries());
        let strayed = self.changed(lengths.places())
            || behind.iter().any(|&word| word != UNTOUCHED)
            || self.out[bytes..].iter().any(|&byte| byte != UNTOUCHED as u8);
        Told { number, value, steps, route, worked: self.changed(0), table: Table(table.to_vec()), strayed }
    }

    /// Whether a cell changed in a work buffer, behind so many places.
    fn changed(&self, places: usize) -> bool {
        let (floats, words, tree) = (&self.floats[NODE_FLOATS * places..], &self.words[NODE_WORDS * places..], &self.tree[NODE_TREE * places..]);
        floats.iter().any(|float| float.to_bits() != UNTOUCHED) || words.iter().chain(tree).any(|&word| word != UNTOUCHED)
    }

    /// How many places were taken since the last paint, the seed's among them.
    pub fn taken(&self) -> usize {
        self.words.chunks_exact(NODE_WORDS).take_while(|row| row[0] != UNTOUCHED).count()
    }

    pub fn paint(&mut self) {
        self.floats.fill(f32::from_bits(UNTOUCHED));
        self.words.fill(UNTOUCHED);
        self.tree.fill(UNTOUCHED);
        self.table.fill(UNTOUCHED);
        self.out.fill(UNTOUCHED as u8);
    }
}

/// The words of the whole entries.
#[derive(Clone, PartialEq)]
pub struct Table(Vec<u32>);

impl Table {
    fn untouched(lengths: &Lengths) -> Table {
        Table(vec![UNTOUCHED; ENTRY_WORDS * lengths.entries()])
    }

    fn is_untouched(&self) -> bool {
        self.0.iter().all(|&word| word == UNTOUCHED)
    }

    /// Whether every entry holds a node.
    pub fn is_full(&self) -> bool {
        self.0.chunks_exact(ENTRY_WORDS).all(|entry| !matches!(entry[ENTRY_WORDS - 1], UNTOUCHED | u32::MAX))
    }
}

/// The entries that are not as they were laid out.
impl fmt::Debug for Table {
    fn fmt(&self, f: &mut fmt::Formatter) -> fmt::Result {
        if self.is_untouched() {
            return write!(f, "untouched");
        }
        let entries = self.0.chunks_exact(ENTRY_WORDS).enumerate();
        f.debug_map().entries(entries.filter(|(_, words)| words.iter().any(|&word| word != u32::MAX))).finish()
    }
}

/// What a search did: the number, the value, the counted steps and the route; whether a work buffer changed at all, the table, and
/// whether a cell changed that never may, behind the whole nodes, behind the whole entries or behind the route.
#[derive(Clone, Debug, PartialEq)]
pub struct Told {
    pub number: u32,
    pub value: Option<usize>,
    pub steps: usize,
    pub route: Vec<u8>,
    pub worked: bool,
    pub table: Table,
    pub strayed: bool,
}

impl Told {
    /// Whether recording began, which shows where entries are lent.
    pub fn is_stalled(&self) -> bool {
        !self.table.is_untouched()
    }

    /// What document 01 says of a floor or a question that it refuses.
    pub fn refused(number: u32, record: Option<usize>, lengths: &Lengths) -> Told {
        Told { number, value: record, steps: 0, route: Vec::new(), worked: false, table: Table::untouched(lengths), strayed: false }
    }

    /// What its search answers, with so much lent.
    pub fn by_document(answer: &search01::Answer, lengths: &Lengths) -> Told {
        let (number, route) = answer.written(lengths.out);
        let table = answer.table.as_ref().map_or(Table::untouched(lengths), |table| Table(table.words()));
        // A route without steps is one within a polygon, where no node is made.
        let worked = answer.route.as_ref().map_or(!(2..=10).contains(&number), |route| !route.steps.is_empty());
        Told { number, value: (number == 0).then_some(route.len()), steps: answer.pops, route, worked, table, strayed: false }
    }
}
