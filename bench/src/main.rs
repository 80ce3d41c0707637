//! Times the proved search beside the unchanged Rust's: the same floors and the same questions, in one run.
//! `bench REPETITIONS` prints a table, and which of the questions drawn are not in it. `bench ours PLACE` asks each question of the floor
//! at that place of the table once, of ours alone, all from one function, for a tool that counts instructions; it prints the floor and the
//! counted steps. `bench limits` counts what README's limits say.

use std::collections::BTreeMap;
use std::hint::black_box;
use std::time::Instant;

use glam::Vec2;
use harness::floor::question;
use harness::halls::{Halls, Shape};

#[path = "../compare/cart.rs"]
mod cart;
mod doors;
mod hall;
#[path = "../compare/lent.rs"]
mod lent;
mod pillars;
mod stalls;

use hall::{Hall, Place};
use lent::Lent;

/// Questions of a floor that both sides find a route for.
const QUESTIONS: usize = 100;
const SEED: u64 = 0xBE4C_0001;

/// The last two have the long routes that the judge is timed on.
const FLOORS: [(Shape, usize); 8] = [
    (Shape::Triangles, 20),
    (Shape::Mixed, 20),
    (Shape::Triangles, 150),
    (Shape::Mixed, 150),
    (Shape::Triangles, 500),
    (Shape::Mixed, 500),
    (Shape::Corridor, 400),
    (Shape::Rings, 500),
];

struct Bench {
    shape: Shape,
    hall: Hall,
    drawn: Drawn,
    questions: Vec<(Place, Place)>,
    /// The route that ours finds for each.
    routes: Vec<Vec<u8>>,
    /// The questions on which ours stalls before it finds a route, with the counted steps and the least nanoseconds yet of a whole call. They
    /// are timed apart.
    stalled: Vec<(Place, Place, usize, f64)>,
    /// Nanoseconds of each question, the least yet of what `timed` gives.
    least: Vec<[f64; 5]>,
}

impl Bench {
    fn new(number: usize, (shape, polygons): (Shape, usize), lent: &mut Lent) -> Bench {
        let mut halls = drawn_by(number, 0);
        let hall = Hall::new(halls.floor(shape, polygons));
        let least = vec![[f64::INFINITY; 5]; QUESTIONS];
        let (drawn, questions, routes, stalled) = (Drawn::default(), Vec::new(), Vec::new(), Vec::new());
        let mut bench = Bench { shape, hall, drawn, questions, routes, stalled, least };
        while bench.questions.len() < QUESTIONS {
            let ends = (halls.point(&bench.hall.floor), halls.point(&bench.hall.floor));
            bench.draw(ends, lent);
        }
        bench
    }

    fn name(&self) -> String {
        name(self.hall.floor.polygons.len(), self.shape)
    }

    fn draw(&mut self, (start, goal): (Vec2, Vec2), lent: &mut Lent) {
        self.drawn.all += 1;
        let Some(asked) = self.hall.ends(start, goal) else {
            self.drawn.in_one += 1;
            return;
        };
        let told = self.hall.told(lent, start, goal);
        let rusts = self.hall.rusts(asked).is_some();
        if told.number == 0 && rusts && told.is_stalled() {
            self.stalled.push((asked.0, asked.1, told.steps, f64::INFINITY));
        } else if told.number == 0 && rusts {
            self.questions.push(asked);
            self.routes.push(told.route);
        } else {
            let counts = self.drawn.left_out.entry(told.number).or_default();
            let also = [true, self.hall.joined(asked), rusts];
            counts.iter_mut().zip(also).for_each(|(count, holds)| *count += holds as usize);
        }
    }

    /// Once over all questions, so that none finds the processor as its own last call left it.
    fn time(&mut self, lent: &mut Lent) {
        for place in 0..self.questions.len() {
            let now = timed(self, place, lent);
            self.least[place].iter_mut().zip(now).for_each(|(least, now)| *least = least.min(now));
        }
        for ((start, _), (goal, _), _, least) in &mut self.stalled {
            *least = least.min(nanoseconds(|| self.hall.ours(lent, *start, *goal)));
        }
    }

    /// How many stalled, and what each of them took.
    fn stalls(&self) -> String {
        let count = self.stalled.len();
        let (steps, least) = self.stalled.iter().fold((0, 0.0), |(steps, sum), (_, _, more, least)| (steps + more, sum + least));
        let of_each = |sum: f64| sum / count as f64;
        format!("{:<16}{count:>10}{:>10.0}{:>14.1}", self.name(), of_each(steps as f64), of_each(least) / 1000.0)
    }

    /// Over all questions.
    fn times(&self) -> Times {
        let sum = |which: usize| self.least.iter().map(|times| times[which]).sum();
        Times { ours: sum(0), look: sum(1), ends: sum(2), rusts: sum(3), judge: sum(4) }
    }
}

/// The questions that were drawn until there were enough to time.
#[derive(Default)]
struct Drawn {
    all: usize,
    /// Start and goal in one polygon.
    in_one: usize,
    /// By our number, those that one of the two has no route for: how many, in how many of them links lead from start to goal, and how many
    /// the Rust finds.
    left_out: BTreeMap<u32, [usize; 3]>,
}

impl Drawn {
    fn row(&self) -> String {
        let told = |(number, [count, joined, rusts]): (&u32, &[usize; 3])| format!("   {number}: {count} ({joined} joined, the Rust finds {rusts})");
        format!("{:>10}{:>10}{:>14}{}", self.all, QUESTIONS, self.in_one, self.left_out.iter().map(told).collect::<String>())
    }
}

/// The floor at a place of the table is the first of the floors that are drawn there.
fn drawn_by(place: usize, floor: u64) -> Halls {
    Halls::new(SEED ^ (place as u64) << 32 ^ floor << 40)
}

fn name(polygons: usize, shape: Shape) -> String {
    format!("{polygons} {shape:?}").to_lowercase()
}

/// Nanoseconds over all questions of a floor, of each the least of all repetitions.
#[derive(Default)]
struct Times {
    /// The whole call.
    ours: f64,
    /// A question of 15 bytes: the look at the floor and the turn vertices, and no more.
    look: f64,
    /// The same, and start and goal sought in the polygons.
    ends: f64,
    rusts: f64,
    /// The judge's whole call on the route that was found.
    judge: f64,
}

fn main() {
    let words: Vec<String> = std::env::args().skip(1).collect();
    let mut lent = Lent::default();
    if words[0] == "ours" {
        let place: usize = words[1].parse().expect("PLACE");
        let bench = Bench::new(place, FLOORS[place], &mut lent);
        return println!("{}: {} questions, {} counted steps", bench.name(), bench.questions.len(), ask_all(&bench, &mut lent));
    }
    if words[0] == "limits" {
        stalls::print(&mut lent);
        println!();
        doors::print(&mut lent);
        println!();
        return pillars::print(&mut lent);
    }
    let repetitions: usize = words[0].parse().expect("REPETITIONS, or the word ours or limits");
    let mut benches: Vec<Bench> = FLOORS.iter().enumerate().map(|(place, &of)| Bench::new(place, of, &mut lent)).collect();
    // All floors in each repetition, so that a time at which the machine had other work falls on all of them alike.
    for _ in 0..repetitions {
        benches.iter_mut().for_each(|bench| bench.time(&mut lent));
    }
    println!("{}", header());
    benches.iter().for_each(|bench| println!("{}", row(bench, &mut lent)));
    println!("Microseconds a question, nanoseconds a pop, a made node and a record: of each of {QUESTIONS} questions the least of {repetitions} calls.");
    println!("\n{:<16}{:>10}{:>10}{:>14}   left out, by our number", "questions", "drawn", "timed", "one polygon");
    benches.iter().for_each(|bench| println!("{:<16}{}", bench.name(), bench.drawn.row()));
    println!("\n{:<16}{:>10}{:>10}{:>14}", "stalled", "found", "steps", "microseconds");
    benches.iter().filter(|bench| !bench.stalled.is_empty()).for_each(|bench| println!("{}", bench.stalls()));
}

/// The counted steps.
#[inline(never)]
fn ask_all(bench: &Bench, lent: &mut Lent) -> usize {
    bench.questions.iter().map(|((start, _), (goal, _))| bench.hall.ours(lent, *start, *goal).1).sum()
}

fn header() -> String {
    let columns = ["pops", "made", "whole", "look", "place", "search", "/pop", "/made", "pops", "made", "search", "/pop", "/made", "/pop", "/question", "records", "judge", "/record", ": search"];
    let columns: String = columns.iter().map(|name| format!("{name:>10}")).collect();
    format!("{:<16}{:>10}{:>80}{:>55}{:>21}\n{:<16}{columns}", "", "ours", "Rust", "ours : Rust", "our judge", "polygons")
}

fn row(bench: &Bench, lent: &mut Lent) -> String {
    let times = bench.times();
    let count = bench.questions.len() as f64;
    let (pops, made) = counted(bench, lent);
    let (rusts_pops, rusts_made) = rusts_counted(bench);
    let search = times.ours - times.ends;
    let [whole, look, ends, alone, rusts] =
        [times.ours, times.look, times.ends - times.look, search, times.rusts].map(|sum| format!("{:>10.2}", sum / count / 1e3));
    let a_question = |sum: usize| format!("{:>10.1}", sum as f64 / count);
    let each = |time: f64, sum: usize| format!("{:>10.1}", time / sum as f64);
    let ours = [a_question(pops), a_question(made), whole, look, ends, alone, each(search, pops), each(search, made)].concat();
    let theirs = [a_question(rusts_pops), a_question(rusts_made), rusts, each(times.rusts, rusts_pops), each(times.rusts, rusts_made)].concat();
    let ratio = (search / pops as f64) / (times.rusts / rusts_pops as f64);
    let records: usize = bench.routes.iter().map(|route| route.len() / cart::RECORD_BYTES).sum();
    let judge = times.judge - times.ends;
    let judged = [a_question(records), format!("{:>10.2}", judge / count / 1e3), each(judge, records)].concat();
    format!("{:<16}{ours}{theirs}{ratio:>10.2}{:>10.2}{judged}{:>10.2}", bench.name(), search / times.rusts, judge / search)
}

/// Nanoseconds of one question: ours, the look, the look with the ends, the Rust's, and our judge's. Start to start and goal to
/// goal are one polygon each time, so half of both is the look and the search for the two polygons, and a route of two records.
fn timed(bench: &Bench, place: usize, lent: &mut Lent) -> [f64; 5] {
    let asked = &bench.questions[place];
    let ((start, _), (goal, _)) = *asked;
    let short = &question(start, goal)[..15];
    let hall = &bench.hall;
    let ours = nanoseconds(|| hall.ours(lent, start, goal));
    let look = nanoseconds(|| hall.asked(lent, short));
    let at_start = nanoseconds(|| hall.ours(lent, start, start));
    let at_goal = nanoseconds(|| hall.ours(lent, goal, goal));
    let rusts = nanoseconds(|| hall.rusts(*asked));
    let judge = nanoseconds(|| cart::judge(hall.lists(), &question(start, goal), &bench.routes[place]));
    [ours, look, (at_start + at_goal) / 2.0, rusts, judge]
}

fn nanoseconds<A>(call: impl FnOnce() -> A) -> f64 {
    let begin = Instant::now();
    black_box(call());
    begin.elapsed().as_nanos() as f64
}

/// The counted steps and the nodes made, over all questions.
fn counted(bench: &Bench, lent: &mut Lent) -> (usize, usize) {
    let mut sums = (0, 0);
    for ((start, _), (goal, _)) in &bench.questions {
        lent.paint();
        let (number, steps) = bench.hall.ours(lent, *start, *goal);
        assert_eq!(number, 0);
        sums = (sums.0 + steps, sums.1 + lent.taken() - 1);
    }
    sums
}

fn rusts_counted(bench: &Bench) -> (usize, usize) {
    let most = 10 * bench.hall.floor.polygons.len();
    let mut sums = (0, 0);
    for &(start, goal) in &bench.questions {
        let (popped, path) = bench.hall.mesh.searched(start, goal, None, most);
        assert!(path.is_some());
        sums = (sums.0 + popped.len(), sums.1 + bench.hall.mesh.made(start, goal, most));
    }
    sums
}
