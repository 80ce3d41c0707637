//! The tests 2 to 9 on any bytes and the judge, from document 01's own sentences ("Numbers that come back", "The route file"),
//! over the steps of `steps01`. Written apart from ours, so that the two can be compared.

use glam::Vec2;
use polyanya::Mesh;

use crate::floor::{is_in_range, Floor, Polygon, MOST_CORNERS, MOST_POLYGONS, MOST_VERTICES, WALL};
use crate::search01::length;
use crate::steps01::{enter, seed, steps_from, Node, Step};

/// Of a polygon: corners, then neighbours.
const RECORD_WORDS: usize = 2 * MOST_CORNERS;
/// Of a route, in bytes.
const RECORD: usize = 32;

/// A number of document 01's table other than 0, and the lowest record at fault where it has one.
pub type Refused = (u32, Option<usize>);

/// A floor and a question that passed tests 2 to 9.
pub struct Read {
    pub floor: Floor,
    pub start: Vec2,
    pub goal: Vec2,
    pub from: u32,
    pub to: u32,
}

fn words(bytes: &[u8]) -> Vec<u32> {
    bytes.chunks_exact(4).map(|four| u32::from_le_bytes(four.try_into().expect("four bytes"))).collect()
}

fn point(x: u32, y: u32) -> Vec2 {
    Vec2::new(f32::from_bits(x), f32::from_bits(y))
}

/// "1 to 1,024 records", of a size.
fn is_whole(bytes: &[u8], size: usize, most: usize) -> bool {
    bytes.len() % size == 0 && (1..=most).contains(&(bytes.len() / size))
}

/// "Tests 2 to 10 run in table order, each over all records before the next"
pub fn read(vertices: &[u8], polygons: &[u8], question: &[u8]) -> Result<Read, Refused> {
    let floor = read_floor(vertices, polygons)?;
    let asked = words(question);
    if question.len() != 16 {
        return Err((7, None));
    }
    let (start, goal) = (point(asked[0], asked[1]), point(asked[2], asked[3]));
    if ![start, goal].iter().all(is_in_range) {
        return Err((7, None));
    }
    let from = floor.polygon_of(start).ok_or((8, None))?;
    let to = floor.polygon_of(goal).ok_or((9, None))?;
    Ok(Read { floor, start, goal, from, to })
}

fn read_floor(vertices: &[u8], polygons: &[u8]) -> Result<Floor, Refused> {
    if !is_whole(vertices, 8, MOST_VERTICES) {
        return Err((2, None));
    }
    if !is_whole(polygons, 4 * RECORD_WORDS, MOST_POLYGONS) {
        return Err((3, None));
    }
    let vertices = words(vertices).chunks_exact(2).map(|pair| point(pair[0], pair[1])).collect();
    let records: Vec<Vec<u32>> = words(polygons).chunks_exact(RECORD_WORDS).map(<[u32]>::to_vec).collect();
    let floor = Floor { vertices, polygons: records.iter().map(|record| used(record)).collect() };
    let corners = |p: usize| floor.polygons[p].corners.len();
    // "Unused slots hold 0xFFFFFFFF and stand after the used ones"; "unused corners have unused neighbours"
    let is_unused = |slots: &[u32]| slots.iter().all(|&slot| slot == WALL);
    let has_corners = |p: usize| floor.has_corners(&floor.polygons[p]) && is_unused(&records[p][corners(p)..MOST_CORNERS]);
    let is_linked = |p: usize| floor.is_linked(p) && is_unused(&records[p][MOST_CORNERS + corners(p)..]);
    if let Some(v) = floor.vertices.iter().position(|vertex| !is_in_range(vertex)) {
        return Err((4, Some(v)));
    }
    if let Some(p) = (0..records.len()).find(|&p| !has_corners(p)) {
        return Err((5, Some(p)));
    }
    if let Some(p) = (0..records.len()).find(|&p| !is_linked(p)) {
        return Err((6, Some(p)));
    }
    Ok(floor)
}

/// The slots of a record before the first unused one, and the neighbours beside them.
fn used(record: &[u32]) -> Polygon {
    let (corners, neighbours) = record.split_at(MOST_CORNERS);
    let n = corners.iter().position(|&slot| slot == WALL).unwrap_or(MOST_CORNERS);
    Polygon { corners: corners[..n].to_vec(), neighbours: neighbours[..n].to_vec() }
}

/// What the judge says of a route file: the points of a true route, or the number and the record at fault.
pub fn judge(read: &Read, route: &[u8]) -> Result<Vec<Vec2>, Refused> {
    if !is_whole(route, RECORD, 4097) || route.len() < 2 * RECORD {
        return Err((20, None));
    }
    let records: Vec<Vec<u32>> = words(route).chunks_exact(8).map(<[u32]>::to_vec).collect();
    let last = records.len() - 1;
    let Read { start, goal, from, to, .. } = *read;
    if records[0] != [1, from, start.x.to_bits(), start.y.to_bits(), 0, 0, 0, 0] {
        return Err((21, Some(0)));
    }
    let mut node = seed(start, from);
    let mut points = Vec::new();
    for (i, record) in records.iter().enumerate().take(last).skip(1) {
        let next = follow(read, &node, record).ok_or((22, Some(i)))?;
        if next.root != node.root {
            points.push(next.root);
        }
        node = next;
    }
    if last > 1 {
        points.extend(Mesh::turning_point(node.root, goal, node.interval));
    }
    points.push(goal);
    let end = [5, points.len() as u32, goal.x.to_bits(), goal.y.to_bits(), length(start, &points).to_bits(), 0, 0, 0];
    if node.polygon != to || records[last] != end {
        return Err((23, Some(last)));
    }
    Ok(points)
}

/// Where the step leads to that the record is.
fn follow(read: &Read, node: &Node, record: &[u32]) -> Option<Node> {
    let steps = steps_from(&read.floor, read.to, node);
    let step = steps.iter().find(|step: &&Step| step.words() == record)?;
    Some(enter(&read.floor, node, step))
}
