//! What a program in Rust does with the library: finds a route on document 01's example floor, has the judge read what was found, and
//! lists the points that a cart drives to. Then what is refused. examples/run_rust builds and runs it.

#[path = "../include/cart.rs"]
mod cart;

use cart::{Answer, Floor, Work, BUDGET, ENTRY_WORDS, NODE_FLOATS, NODE_TREE, NODE_WORDS, RECORD_BYTES, WORDS_BYTES};

/// Room for a search of so many nodes, and for the longest route that they can make.
const NODES: usize = 64;

/// The route's bytes, or document 01's number.
fn find(floor: Floor, question: &[u8]) -> Result<Vec<u8>, u32> {
    let (mut floats, mut words, mut tree) = ([0.0; NODE_FLOATS * NODES], [0; NODE_WORDS * NODES], [0; NODE_TREE * NODES]);
    let mut table = [0; ENTRY_WORDS * NODES];
    let work = Work { floats: &mut floats, words: &mut words, tree: &mut tree, table: &mut table };
    let mut out = vec![0; RECORD_BYTES * (NODES + 1)];
    match cart::search(floor, question, BUDGET, work, &mut out).0 {
        Answer { number: 0, value: Some(bytes) } => Ok(out[..bytes].to_vec()),
        Answer { number, .. } => Err(number),
    }
}

/// The points of a route that the judge accepts, or document 01's number.
fn list(floor: Floor, question: &[u8], route: &[u8]) -> Result<Vec<(f32, f32)>, u32> {
    let mut points = vec![0.0; route.len() / 16];
    match cart::read_out(floor, question, route, &mut points) {
        Answer { number: 0, value: Some(count) } => Ok(points.chunks_exact(2).take(count).map(|point| (point[0], point[1])).collect()),
        Answer { number, .. } => Err(number),
    }
}

/// The number, the record where there is one, and the words: the line that the programs say.
fn say(number: u32, record: Option<usize>) -> String {
    let record = record.map_or(String::new(), |record| format!(" at record {record}"));
    let gap = if number == 0 { " " } else { ": " };
    format!("{number}{record}{gap}{}", cart::words(number, &mut [0; WORDS_BYTES]))
}

fn main() {
    let floor = Floor {
        vertices: include_bytes!("../crates/judge_main/data/floor.vtx"),
        polygons: include_bytes!("../crates/judge_main/data/floor.ply"),
    };
    let question = include_bytes!("../crates/judge_main/data/question");
    let route = find(floor, question).expect("a route");
    let judged = cart::judge(floor, question, &route);
    let points = list(floor, question, &route).expect("an accepted route");
    println!("found: {} bytes, judged: {}, points: {points:?}", route.len(), say(judged.number, judged.value));
    assert_eq!((route.len(), judged, &points[..]), (96, Answer { number: 0, value: None }, &[(3.0, 1.0)][..]));

    let cut = cart::judge(floor, question, &route[..64]);
    println!("cut short: {}", say(cut.number, cut.value));
    let none = find(floor, &question[..15]).expect_err("a question of 15 bytes is refused");
    println!("15 bytes: {}", say(none, None));
    assert_eq!((cut, none), (Answer { number: 23, value: Some(1) }, 7));
}
