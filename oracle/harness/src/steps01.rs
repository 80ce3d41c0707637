//! The permitted steps out of a node, from document 01's own sentences ("A permitted step") over the original's general
//! walk and clip. Written apart from our steps, so that the two can be compared.

use glam::Vec2;
use polyanya_general_walk::Mesh;

use crate::floor::{Floor, Polygon, WALL};

pub type Segment = (Vec2, Vec2);

/// "Observable is kind 2, .. RightNonObservable is kind 3, LeftNonObservable kind 4"
#[derive(Clone, Copy, Debug, PartialEq)]
pub enum Kind {
    Observable = 2,
    Right = 3,
    Left = 4,
}

/// A middle record of the route file.
#[derive(Clone, Copy, Debug, PartialEq)]
pub struct Step {
    pub kind: Kind,
    /// The polygon entered.
    pub polygon: u32,
    /// The edge's two vertices, as the polygon that is left has them.
    pub first: u32,
    pub second: u32,
    /// Right, then left.
    pub interval: Segment,
}

impl Step {
    /// The record's words: two steps are the same when all of these are.
    pub fn words(&self) -> [u32; 8] {
        let (right, left) = self.interval;
        let [a, b, c, d] = [right.x, right.y, left.x, left.y].map(f32::to_bits);
        [self.kind as u32, self.polygon, self.first, self.second, a, b, c, d]
    }
}

/// Where a step led to, or the seed.
#[derive(Clone, Copy, Debug, PartialEq)]
pub struct Node {
    pub seed: bool,
    pub polygon: u32,
    /// The entry edge's two vertices, as the polygon that was left has them. The seed has none.
    pub first: u32,
    pub second: u32,
    pub interval: Segment,
    pub root: Vec2,
}

impl Node {
    /// 1 for the seed, the numbers, then the bits of the interval and of the root.
    pub fn words(&self) -> [u32; 10] {
        let (right, left) = self.interval;
        let [a, b, c, d, e, f] = [right.x, right.y, left.x, left.y, self.root.x, self.root.y].map(f32::to_bits);
        [self.seed as u32, self.polygon, self.first, self.second, a, b, c, d, e, f]
    }

    /// In a listed polygon, over one of its edges between listed vertices. The seed was entered over none.
    pub fn stands_on(&self, floor: &Floor) -> bool {
        let is_vertex = |v: u32| (v as usize) < floor.vertices.len();
        let polygon = floor.polygons.get(self.polygon as usize);
        let is_entered = |polygon: &Polygon| self.seed || polygon.corners.contains(&self.second);
        polygon.is_some_and(is_entered) && is_vertex(self.first) && is_vertex(self.second)
    }
}

/// "From the seed: .. root the start."
pub fn seed(start: Vec2, polygon: u32) -> Node {
    Node { seed: true, polygon, first: 0, second: 0, interval: (start, start), root: start }
}

/// Where a step leads to.
pub fn enter(floor: &Floor, node: &Node, step: &Step) -> Node {
    let Step { polygon, first, second, interval, .. } = *step;
    Node { seed: false, polygon, first, second, interval, root: root_after(floor, node, step.kind) }
}

/// All of them, in order. `goal` is the number of the goal's polygon.
pub fn steps_from(floor: &Floor, goal: u32, node: &Node) -> Vec<Step> {
    // "Nothing steps out of the goal polygon."
    if node.polygon == goal {
        return Vec::new();
    }
    if node.seed {
        seed_steps(floor, node)
    } else {
        node_steps(floor, node)
    }
}

/// "From the seed: each non-wall edge in order, whole, kind 2, root the start."
fn seed_steps(floor: &Floor, node: &Node) -> Vec<Step> {
    let polygon = floor.polygon(node.polygon);
    let mut steps = Vec::new();
    for ((first, second), &across) in polygon.edges().zip(&polygon.neighbours) {
        let interval = (floor.vertex(first), floor.vertex(second));
        if across != WALL && is_interval(interval) {
            steps.push(Step { kind: Kind::Observable, polygon: across, first, second, interval });
        }
    }
    steps
}

/// "Otherwise, from a node, each successor in order whose edge has a neighbour"
fn node_steps(floor: &Floor, node: &Node) -> Vec<Step> {
    let polygon = floor.polygon(node.polygon);
    let corners: Vec<Vec2> = polygon.corners.iter().map(|&v| floor.vertex(v)).collect();
    // The polygon that is entered has the edge the other way round, so it begins at the second vertex.
    let entry = polygon.corners.iter().position(|&v| v == node.second).expect("the entry edge is one of the polygon's");
    let mut steps = Vec::new();
    for ([edge, _], whole, number) in Mesh::edges_between(&corners, entry as u32, node.root, node.interval) {
        let (edge, kind) = (edge as usize, kind_of(number));
        let across = polygon.neighbours[edge];
        if across == WALL || !is_allowed(floor, node, kind) {
            continue;
        }
        // "If the root is unchanged by ==, and the node is not the seed, the interval is clipped; none is no step."
        let unchanged = root_after(floor, node, kind) == node.root;
        let clipped = if unchanged { Mesh::clip_to_cone(node.root, node.interval, whole) } else { Some(whole) };
        if let Some(interval) = clipped.filter(|&interval| is_interval(interval)) {
            let (first, second) = (polygon.corners[edge], polygon.corner_after(edge));
            steps.push(Step { kind, polygon: across, first, second, interval });
        }
    }
    steps
}

/// The walk's own numbers, in the order of the original's enum.
fn kind_of(number: u32) -> Kind {
    [Kind::Left, Kind::Observable, Kind::Right][number as usize]
}

/// "allowed when the node's right (left) interval end lands on its entry edge's first (second) vertex and that is a turn vertex"
fn is_allowed(floor: &Floor, node: &Node, kind: Kind) -> bool {
    let turns = |end: Vec2, v: u32| lands_on(end, floor.vertex(v)) && floor.turns_at(v);
    match kind {
        Kind::Observable => true,
        Kind::Right => turns(node.interval.0, node.first),
        Kind::Left => turns(node.interval.1, node.second),
    }
}

/// "root kept", or the vertex's own coordinates: "that is a turn vertex, which becomes the root"
pub fn root_after(floor: &Floor, node: &Node, kind: Kind) -> Vec2 {
    match kind {
        Kind::Observable => node.root,
        Kind::Right => floor.vertex(node.first),
        Kind::Left => floor.vertex(node.second),
    }
}

/// "lands on a vertex when its squared distance to it is below 0.002 × 0.002": the f32 product, 0x368637BE
pub fn lands_on(end: Vec2, vertex: Vec2) -> bool {
    const ALLOWANCE: f32 = 0.002;
    (end - vertex).dot(end - vertex) < ALLOWANCE * ALLOWANCE
}

/// "Equal ends (==) or a non-finite end is no step."
fn is_interval((right, left): Segment) -> bool {
    let is_finite = |end: Vec2| end.x.is_finite() && end.y.is_finite();
    right != left && is_finite(right) && is_finite(left)
}
