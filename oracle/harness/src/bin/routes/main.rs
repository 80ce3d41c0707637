//! Stored routes for tests that have no Rust at hand: floors and questions, and what the documents answer on each, as `search01`
//! has it. `routes cases` writes them as crates/routes reads them, and `routes lines` the lines that it must then write.
//!
//! A case is eleven little-endian words: the bytes of its name, of the vertex list, the polygon list and the question; the places,
//! the entries of the table, the budget and the bytes of room that are lent; the number, the counted steps and the route's bytes that
//! must come back. Then the name, the two lists, the question and the route follow.

use std::io::{self, Write};

use glam::Vec2;
use harness::floor::{question, Floor};
use harness::search01::{self, Lends};

mod cases;
mod drawn;

pub struct Case {
    pub name: &'static str,
    pub floor: Floor,
    pub start: Vec2,
    pub goal: Vec2,
    pub lends: Lends,
    pub room: usize,
}

/// What must come back.
struct Expected {
    number: u32,
    steps: usize,
    route: Vec<u8>,
}

fn main() -> io::Result<()> {
    let what = std::env::args().nth(1);
    let write = match what.as_deref() {
        Some("cases") => write_case,
        Some("lines") => write_line,
        _ => panic!("say which: routes cases, or routes lines"),
    };
    let mut out = io::BufWriter::new(io::stdout().lock());
    let cases = cases::all();
    for case in &cases {
        write(&mut out, case, &expected(case))?;
    }
    if what.as_deref() == Some("lines") {
        writeln!(out, "{} cases", cases.len())?;
    }
    out.flush()
}

fn answered(case: &Case) -> search01::Answer {
    assert_eq!(case.floor.refused(), 0, "{}", case.name);
    search01::search(&case.floor, case.start, case.goal, case.lends)
}

fn expected(case: &Case) -> Expected {
    let answer = answered(case);
    let (number, route) = answer.written(case.room);
    Expected { number, steps: answer.pops, route }
}

fn write_case(out: &mut dyn Write, case: &Case, expected: &Expected) -> io::Result<()> {
    let (vertices, polygons) = case.floor.bytes();
    let question = question(case.start, case.goal);
    let Lends { places, entries, budget } = case.lends;
    let lent = [places, entries, budget, case.room];
    let answered = [expected.number as usize, expected.steps, expected.route.len()];
    let lengths = [case.name.len(), vertices.len(), polygons.len(), question.len()];
    for word in lengths.into_iter().chain(lent).chain(answered) {
        out.write_all(&(word as u32).to_le_bytes())?;
    }
    for part in [case.name.as_bytes(), &vertices, &polygons, &question, &expected.route] {
        out.write_all(part)?;
    }
    Ok(())
}

fn write_line(out: &mut dyn Write, case: &Case, expected: &Expected) -> io::Result<()> {
    let Expected { number, steps, route } = expected;
    write!(out, "{}: {number} {}, steps {steps}, bytes {}, as stored", case.name, words(*number), route.len())?;
    if *number == 0 {
        write!(out, ", judged 0 accepted")?;
    }
    writeln!(out)
}

/// The words of crates/says, which has "accepted" for 0.
fn words(number: u32) -> &'static str {
    match number {
        0 => "found",
        1 => "no route was found",
        8 => "the start is in no polygon",
        9 => "the goal is in no polygon",
        10 => "no room was lent for a node",
        11 => "the room for nodes is used up",
        12 => "the budget of steps is spent",
        13 => "the output is too short",
        14 => "the search stalled, and its table is full",
        _ => panic!("no case has {number}"),
    }
}
