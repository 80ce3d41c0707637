//! Inputs and answers in plain words, the same ones for either side.

use glam::Vec2;
use harness::floor::{Floor, WALL};
use harness::steps01::{self, Segment};
use polyanya::Path;

pub fn at(x: f32, y: f32) -> Vec2 {
    Vec2::new(x, y)
}

pub fn floor(vertices: &[(f32, f32)], polygons: &[&[u32]]) -> Floor {
    let corners: Vec<Vec<u32>> = polygons.iter().map(|corners| corners.to_vec()).collect();
    Floor::linked(vertices.iter().map(|&(x, y)| at(x, y)).collect(), &corners)
}

/// Two triangles that share two vertices, and a wall between them.
pub fn walled() -> Floor {
    let mut floor = floor(&[(0.0, 0.0), (2.0, 0.0), (0.0, 2.0), (2.0, 2.0)], &[&[0, 1, 2], &[1, 3, 2]]);
    floor.wall_up(1, 2);
    floor
}

pub fn point(point: Vec2) -> String {
    format!("({}, {})", point.x, point.y)
}

pub fn points(list: &[Vec2]) -> String {
    let words: Vec<String> = list.iter().map(|&vertex| point(vertex)).collect();
    words.join(" ")
}

pub fn interval((right, left): Segment) -> String {
    format!("{} to {}", point(right), point(left))
}

fn joined(parts: Vec<String>) -> String {
    if parts.is_empty() {
        return "none".to_string();
    }
    parts.join("; ")
}

pub fn asked(floor: &Floor, start: Vec2, goal: Vec2) -> String {
    format!("{}, question {} to {}", of_floor(floor), point(start), point(goal))
}

/// The floor's vertices and the corners of its polygons. A pair of opposite edges is open unless it is called a wall.
fn of_floor(floor: &Floor) -> String {
    let numbers = |corners: &[u32]| corners.iter().map(u32::to_string).collect::<Vec<_>>().join(",");
    let polygons: Vec<String> = floor.polygons.iter().map(|polygon| numbers(&polygon.corners)).collect();
    let mut words = format!("vertices {}, polygons {}", points(&floor.vertices), polygons.join(" "));
    for (p, polygon) in floor.polygons.iter().enumerate() {
        for ((a, b), &across) in polygon.edges().zip(&polygon.neighbours) {
            let is_shared = floor.polygons[p..].iter().any(|other| other.edges().any(|edge| edge == (b, a)));
            if across == WALL && is_shared {
                words += &format!(", a wall along {a}-{b}");
            }
        }
    }
    words
}

/// As the walk has them: 0 LeftNonObservable, 1 Observable, 2 RightNonObservable.
pub fn successors(list: impl IntoIterator<Item = ([u32; 2], Segment, u32)>) -> String {
    let kinds = ["not seen on the left", "seen", "not seen on the right"];
    let words = |([from, to], part, kind): ([u32; 2], Segment, u32)| format!("{from}-{to} {} {}", interval(part), kinds[kind as usize]);
    joined(list.into_iter().map(words).collect())
}

/// A node of the original's.
pub type Node = ([u32; 4], Segment, Vec2);

pub fn node(([_, polygon, first, second], part, root): Node) -> String {
    format!("into {polygon} over {first}-{second}, {}, root {}", interval(part), point(root))
}

pub fn nodes(list: Vec<Node>) -> String {
    joined(list.into_iter().map(node).collect())
}

/// The node of the original's that stands where one of document 01's does. The seed has left its own polygon.
pub fn as_node(left: u32, at: &steps01::Node) -> Node {
    ([left, at.polygon, at.first, at.second], at.interval, at.root)
}

/// Document 01's steps out of a node, each as the node that it leads to.
pub fn steps(floor: &Floor, goal: u32, from: &steps01::Node) -> String {
    let steps = steps01::steps_from(floor, goal, from);
    nodes(steps.iter().map(|step| as_node(from.polygon, &steps01::enter(floor, from, step))).collect())
}

pub fn found(pops: usize, path: &[Vec2], length: f32) -> String {
    format!("found after {}, points {}, length {length}", counted(pops), points(path))
}

pub fn counted(pops: usize) -> String {
    format!("{pops} pop{}", if pops == 1 { "" } else { "s" })
}

pub fn path(pops: usize, path: Option<Path>) -> String {
    path.map_or(format!("not found after {}", counted(pops)), |path| found(pops, &path.path, path.length))
}
