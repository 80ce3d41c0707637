//! Damaged input, at scale: random and damaged floors, questions, routes and lent buffers, each given to the proved search, judge and
//! read-out and to the documents' own sentences (judge01, search01). Every answer and every lent byte must be as they say.

#[path = "../compare/cart.rs"]
mod cart;
mod damage;
mod files;
#[path = "../compare/lent.rs"]
mod lent;

use std::collections::BTreeMap;
use std::fmt::Debug;
use std::process::ExitCode;

use cart::Answer;
use damage::Damage;
use files::Files;
use glam::Vec2;
use harness::chunks::counted;
use harness::floor::question;
use harness::floors::Floors;
use harness::halls::{Halls, SHAPES};
use harness::judge01::{self, Read, Refused};
use harness::search01;
use lent::{Lengths, Lent, Told};

const CHUNK: usize = 256;
const SEED: u64 = 0xCA3B_A161;
/// Differences that are printed whole.
const SHOWN: usize = 5;

#[derive(Default)]
struct Counts {
    /// Cases by what was called and the number that came.
    numbers: BTreeMap<(&'static str, u32), usize>,
    differ: usize,
    /// The first few.
    differences: Vec<String>,
}

impl Counts {
    fn add(&mut self, other: Counts) {
        other.numbers.into_iter().for_each(|(key, count)| *self.numbers.entry(key).or_default() += count);
        self.differ += other.differ;
        self.differences.extend(other.differences);
    }

    fn check<A: PartialEq + Debug>(&mut self, what: &'static str, number: u32, expected: A, seen: A, files: &Files) {
        *self.numbers.entry((what, number)).or_default() += 1;
        if expected == seen {
            return;
        }
        self.differ += 1;
        if self.differences.len() < SHOWN {
            self.differences.push(format!("{what}\n  01:   {expected:?}\n  ours: {seen:?}\n  on {files:?}"));
        }
    }
}

fn main() -> ExitCode {
    let cases: usize = std::env::args().nth(1).and_then(|text| text.parse().ok()).expect("say how many cases");
    let threads = std::env::args().nth(2).and_then(|text| text.parse().ok()).unwrap_or(1);
    let mut all = Counts::default();
    counted(threads, cases.div_ceil(CHUNK), try_chunk).into_iter().for_each(|counts| all.add(counts));
    all.differences.iter().take(SHOWN).for_each(|text| println!("{text}"));
    for what in ["search", "judge", "read-out"] {
        let of = all.numbers.iter().filter(|(key, _)| key.0 == what);
        let line: Vec<String> = of.map(|((_, number), count)| format!("{number}: {count}")).collect();
        println!("{what}: {}", line.join(", "));
    }
    let tried: usize = all.numbers.values().sum();
    println!("{tried} answers, {} differ", all.differ);
    ExitCode::from((all.differ != 0) as u8)
}

/// A floor and a question, whole in one chunk of four, and what is made of them.
fn try_chunk(chunk: usize, counts: &mut Counts) {
    let seed = SEED ^ (chunk as u64) << 20;
    let (mut floors, mut halls, mut damage) = (Floors::new(seed), Halls::new(seed ^ 1), Damage::new(seed ^ 2));
    let small = damage.one_in(2);
    let most = if damage.one_in(8) { 500 } else { 40 };
    let polygons = 3 + damage.below(most);
    let shape = SHAPES[damage.below(SHAPES.len())];
    let floor = if small { floors.floor() } else { halls.floor(shape, polygons) };
    let (vertices, polygons) = floor.bytes();
    let mut route = Vec::new();
    for _ in 0..CHUNK {
        let mut point = || if damage.one_in(4) { floors.point(&floor) } else { halls.point(&floor) };
        let (start, goal) = (point(), point());
        let mut files = Files { vertices: vertices.clone(), polygons: polygons.clone(), question: question(start, goal).to_vec() };
        if damage.one_in(3) {
            damage.files(&mut files);
        }
        let read = judge01::read(&files.vertices, &files.polygons, &files.question);
        if let Some(found) = try_search(&files, &read, &mut damage, counts) {
            route = found;
        }
        try_route(&files, &read, &route, counts);
        let damaged = damage.route(&route);
        try_route(&files, &read, &damaged, counts);
        try_read_out(&files, &read, if damage.one_in(2) { &route } else { &damaged }, &mut damage, counts);
    }
}

/// Whether it may be the answer of a search: a number of the table with what comes with it, and on 0 a route that document 01 accepts.
fn may_be(told: &Told, read: &Read, budget: usize, lengths: &Lengths) -> bool {
    let is_fit = match told.number {
        0 => told.value == Some(told.route.len()) && judge01::judge(read, &told.route).is_ok(),
        1 | 11 | 13 => told.value.is_none(),
        12 => told.value.is_none() && told.steps == budget,
        14 => told.value.is_none() && lengths.entries() < lengths.places() && told.table.is_full(),
        _ => false,
    };
    is_fit && !told.strayed && told.steps <= budget && told.worked == (read.from != read.to)
}

/// The route, where one was found. One search in sixteen is made by document 01's sentences too, which are slow.
fn try_search(files: &Files, read: &Result<Read, Refused>, damage: &mut Damage, counts: &mut Counts) -> Option<Vec<u8>> {
    let (budget, lengths) = damage.lends();
    let told = Lent::new(&lengths).told(files.floor(), &files.question, budget, &lengths);
    let by_document = |read: &Read| {
        let answer = search01::search(&read.floor, read.start, read.goal, lengths.lends(budget));
        Told::by_document(&answer, &lengths)
    };
    // None where the answer may not be.
    let expected = match read {
        Err((number, record)) => Some(Told::refused(*number, *record, &lengths)),
        Ok(read) if lengths.places() == 0 || damage.one_in(16) => Some(by_document(read)),
        Ok(read) => may_be(&told, read, budget, &lengths).then(|| told.clone()),
    };
    counts.check("search", told.number, expected.as_ref(), Some(&told), files);
    (told.number == 0).then_some(told.route)
}

/// What document 01's judge says: the points of an accepted route, or the number and the record.
fn judged(read: &Result<Read, Refused>, route: &[u8]) -> Result<Vec<Vec2>, Refused> {
    read.as_ref().map_err(|refused| *refused).and_then(|read| judge01::judge(read, route))
}

fn try_route(files: &Files, read: &Result<Read, Refused>, route: &[u8], counts: &mut Counts) {
    let (number, value) = judged(read, route).err().unwrap_or((0, None));
    let seen = cart::judge(files.floor(), &files.question, route);
    counts.check("judge", number, Answer { number, value }, seen, files);
}

fn try_read_out(files: &Files, read: &Result<Read, Refused>, route: &[u8], damage: &mut Damage, counts: &mut Counts) {
    let judged = judged(read, route);
    let most = judged.as_ref().map_or(8, |points| 2 * points.len());
    let room = (most + damage.below(4)).saturating_sub(damage.below(4));
    let (number, value, points) = match judged {
        Ok(points) if 2 * points.len() > room => (13, None, Vec::new()),
        Ok(points) => (0, Some(points.len()), points.iter().flat_map(|point| [point.x, point.y]).map(f32::to_bits).collect()),
        Err((number, record)) => (number, record, Vec::new()),
    };
    counts.check("read-out", number, (Answer { number, value }, points), files.read_out(route, room), files);
}
