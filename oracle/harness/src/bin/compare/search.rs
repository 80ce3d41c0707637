//! The whole search on random questions: ours beside the documents' own sentences (search01), number, counted steps, route bytes and
//! the table's words; every route that is found goes to our judge; and its length is held beside the unchanged Rust's.

use glam::Vec2;
use harness::chunks::counted;
use harness::floor::{question, Floor};
use harness::floors::Floors;
use harness::halls::{Halls, Shape, SHAPES};
use harness::random::Random;
use harness::search01::{search, BUDGET};

use crate::cart::{self, ENTRY_WORDS, MOST_NODES, ROUTE_BYTES};
use crate::lengths::{Counts as RouteLengths, Ends};
use crate::lent::{Lengths, Lent, Told};
use crate::{Sum, SHOWN};

/// What ONLY calls it.
pub const NAME: &str = "search";

/// Chunks of each class, the questions of one, and the questions of one floor.
const CHUNKS: usize = 128;
const CHUNK: usize = 64;
const QUESTIONS: usize = 8;
const SEED: u64 = 0x5EA2_0001;
/// The most polygons of a floor, and of one in eight.
const MOST: usize = 120;
const MANY: usize = 300;

/// Shapes of halls, and before them the small floors that the steps are compared on.
const CLASSES: usize = SHAPES.len() + 1;

#[derive(Default)]
struct Counts {
    questions: usize,
    numbers: [usize; 15],
    /// Recording began.
    stalled: usize,
    steps: usize,
    /// Routes that the judge did not accept.
    refused: usize,
    differ: usize,
    /// The first few.
    differences: Vec<String>,
    lengths: RouteLengths,
}

impl Counts {
    fn add(&mut self, other: Counts) {
        self.questions += other.questions;
        self.numbers.iter_mut().zip(other.numbers).for_each(|(sum, count)| *sum += count);
        self.stalled += other.stalled;
        self.steps += other.steps;
        self.refused += other.refused;
        self.differ += other.differ;
        self.differences.extend(other.differences);
        self.lengths.add(other.lengths);
    }
}

/// Prints the line of the function, then one a class, then what became of the lengths.
pub fn compare(threads: usize) -> Sum {
    let mut all = Counts::default();
    let mut lines = Vec::new();
    for class in 0..CLASSES {
        let counts = count(class, threads);
        let Counts { questions, steps, numbers, refused, differ, .. } = counts;
        let (agreed, of) = counts.lengths.agreed();
        let name = described(class);
        lines.push(format!("  {name}: {questions} questions, {steps} steps, {} found, {refused} refused by the judge, {differ} differ", numbers[0]));
        let stalled = counts.stalled;
        lines.push(format!("    {stalled} stalled; {agreed} of {of} end as the unchanged Rust does, to the bit of the length"));
        all.add(counts);
    }
    println!("{:<24}{:>12}{:>12}{:>12}", NAME, 0, all.questions, all.differ + all.refused);
    lines.iter().for_each(|line| println!("{line}"));
    let numbers = all.numbers.iter().enumerate().filter(|(_, &count)| count != 0);
    let numbers: Vec<String> = numbers.map(|(number, count)| format!("{number}: {count}")).collect();
    println!("  questions by their number: {}", numbers.join(", "));
    all.differences.iter().take(SHOWN).for_each(|text| println!("{text}"));
    let unlisted = all.lengths.print();
    Sum { compared: all.questions, differ: all.differ + all.refused + unlisted }
}

fn described(class: usize) -> &'static str {
    match class.checked_sub(1).map(|place| SHAPES[place]) {
        None => "small floors of any shape",
        Some(Shape::Mixed) => "grids with obstacles, polygons of 3 to 8 corners",
        Some(Shape::Triangles) => "grids with obstacles, triangles",
        Some(Shape::Corridor) => "corridors that go to and fro",
        Some(Shape::Rings) => "rings about a pillar",
        Some(Shape::Long) => "halls of 12,000 metres",
    }
}

fn count(class: usize, threads: usize) -> Counts {
    let work = |chunk, (counts, lent): &mut (Counts, Lent)| compare_chunk(class, chunk, lent, counts);
    let mut all = Counts::default();
    counted(threads, CHUNKS, work).into_iter().for_each(|(counts, _)| all.add(counts));
    all
}

fn compare_chunk(class: usize, chunk: usize, lent: &mut Lent, counts: &mut Counts) {
    let seed = SEED ^ (class as u64) << 48 ^ (chunk as u64) << 32;
    let (mut floors, mut halls, mut random) = (Floors::new(seed), Halls::new(seed ^ 1), Random::new(seed ^ 2));
    for _ in 0..CHUNK / QUESTIONS {
        let floor = match class.checked_sub(1) {
            None => floors.floor(),
            Some(place) => {
                let most = if random.below(8) == 0 { MANY } else { MOST };
                halls.floor(SHAPES[place], 6 + random.below(most))
            }
        };
        assert_eq!(floor.refused(), 0, "{floor:?}");
        let ends = Ends::new(&floor);
        let (vertices, polygons) = floor.bytes();
        let stored = cart::Floor { vertices: &vertices, polygons: &polygons };
        for _ in 0..QUESTIONS {
            // Anywhere in a polygon, or one time in four a corner, on an edge or beside it.
            let mut point = || if random.below(4) == 0 { floors.point(&floor) } else { halls.point(&floor) };
            let (start, goal) = (point(), point());
            let lends = lends(&mut random);
            compare_question(&floor, stored, &ends, (start, goal), lends, lent, counts);
        }
    }
}

/// The budget, the places, the table and the room for the route: three times in four all that there is.
fn lends(random: &mut Random) -> (usize, Lengths) {
    match random.below(20) {
        0 => (random.below(40), Lengths::MOST),
        1 => (BUDGET, Lengths::of(random.below(60), ROUTE_BYTES)),
        2 => (BUDGET, Lengths::of(MOST_NODES, random.below(400))),
        3 => (BUDGET, Lengths { table: random.below(40 * ENTRY_WORDS), ..Lengths::MOST }),
        4 => (512 + random.below(400), Lengths { table: ENTRY_WORDS * random.below(4), ..Lengths::MOST }),
        _ => (BUDGET, Lengths::MOST),
    }
}

fn compare_question(
    floor: &Floor,
    stored: cart::Floor,
    ends: &Ends,
    (start, goal): (Vec2, Vec2),
    (budget, lengths): (usize, Lengths),
    lent: &mut Lent,
    counts: &mut Counts,
) {
    let asked = question(start, goal);
    let answer = search(floor, start, goal, lengths.lends(budget));
    let by_document = Told::by_document(&answer, &lengths);
    let ours = lent.told(stored, &asked, budget, &lengths);
    lent.paint();
    counts.questions += 1;
    counts.numbers[by_document.number as usize] += 1;
    counts.stalled += answer.table.is_some() as usize;
    counts.steps += by_document.steps;
    counts.refused += (ours.number == 0 && cart::judge(stored, &asked, &ours.route).number != 0) as usize;
    if ours != by_document {
        counts.differ += 1;
        let Lengths { table, out, .. } = lengths;
        let text = format!("  {start:?} to {goal:?}, budget {budget}, {} places, table {table}, room {out}, on {floor:?}", lengths.places());
        counts.differences.push(format!("{text}\n    01:   {by_document:?}\n    ours: {ours:?}"));
    }
    let whole = (budget, lengths) == (BUDGET, Lengths::MOST);
    if whole && !(7..=9).contains(&answer.number) {
        counts.lengths.compare(ends, floor, (start, goal), &answer);
    }
}
