//! Document 01's steps with each difference that docs/DIFFERENCES.md lists of them as a switch. With all switches off these
//! must be the steps of `steps01`, with all on the nodes that the Rust makes: then the list is whole.

use glam::Vec2;
use polyanya::Mesh;
use polyanya_general_walk::Mesh as GeneralWalk;

use crate::floor::{Floor, WALL};
use crate::floors::Asked;
use crate::steps01::{lands_on, Node, Segment};

/// The Rust's way, where a switch is on.
#[derive(Clone, Copy, Debug, Default)]
pub struct Switches {
    /// A triangle is walked by a function of its own.
    pub triangles: bool,
    /// The landing's allowance grows with the distance.
    pub landing: bool,
    /// The new root is the interval's end.
    pub root: bool,
    /// Kind 3 asks that the successor's own right end lands on its corner.
    pub own_right: bool,
    /// Kind 4 asks it of the left end.
    pub own_left: bool,
    /// Not back to the polygon just left.
    pub back: bool,
    /// Not into a polygon with a single neighbour, unless the goal is there.
    pub dead_ends: bool,
    /// Nothing through a squared length below 1e-10, unless from the seed.
    pub small: bool,
    /// The neighbour is the first other polygon that has both vertices.
    pub neighbour: bool,
}

impl Switches {
    pub const OFF: Switches = Switches {
        triangles: false,
        landing: false,
        root: false,
        own_right: false,
        own_left: false,
        back: false,
        dead_ends: false,
        small: false,
        neighbour: false,
    };
    pub const ON: Switches = Switches {
        triangles: true,
        landing: true,
        root: true,
        own_right: true,
        own_left: true,
        back: true,
        dead_ends: true,
        small: true,
        neighbour: true,
    };

    /// All on but one, with its name.
    pub fn all_but_one() -> [(&'static str, Switches); 9] {
        [
            ("triangles", Switches { triangles: false, ..Switches::ON }),
            ("landing", Switches { landing: false, ..Switches::ON }),
            ("the new root", Switches { root: false, ..Switches::ON }),
            ("kind 3", Switches { own_right: false, ..Switches::ON }),
            ("kind 4", Switches { own_left: false, ..Switches::ON }),
            ("going back", Switches { back: false, ..Switches::ON }),
            ("dead ends", Switches { dead_ends: false, ..Switches::ON }),
            ("small intervals", Switches { small: false, ..Switches::ON }),
            ("the neighbour across an edge", Switches { neighbour: false, ..Switches::ON }),
        ]
    }
}

/// The nodes that follow a node, in order.
pub fn following(switches: Switches, floor: &Floor, asked: &Asked) -> Vec<Node> {
    let Asked { goal_polygon, node, left, .. } = asked;
    if node.polygon == *goal_polygon {
        return Vec::new();
    }
    let polygon = floor.polygon(node.polygon);
    let mut made = Vec::new();
    for (edge, whole, kind) in parts(switches, floor, node) {
        let (first, second) = (polygon.corners[edge], polygon.corner_after(edge));
        let across = if switches.neighbour { named_by_both(floor, node.polygon, first, second) } else { polygon.neighbours[edge] };
        if across == WALL || (switches.dead_ends && across != *goal_polygon && is_one_way(floor, across)) {
            continue;
        }
        if switches.back && !node.seed && across == *left {
            continue;
        }
        let own_corners = (floor.vertex(first), floor.vertex(second));
        let Some(root) = root_after(switches, floor, node, kind, whole, own_corners) else { continue };
        if switches.small && !node.seed && (whole.0 - whole.1).dot(whole.0 - whole.1) < 1.0e-10 {
            continue;
        }
        let clip = root == node.root && !node.seed;
        let Some(interval) = (if clip { Mesh::clip_to_cone(root, node.interval, whole) } else { Some(whole) }) else { continue };
        let is_finite = [interval.0.x, interval.0.y, interval.1.x, interval.1.y].iter().all(|float| float.is_finite());
        if interval.0 != interval.1 && is_finite {
            made.push(Node { seed: false, polygon: across, first, second, interval, root });
        }
    }
    made
}

/// The seed's whole edges, or the walk: the edge's place in the polygon, the part of it, and 0 left, 1 seen, 2 right.
fn parts(switches: Switches, floor: &Floor, node: &Node) -> Vec<(usize, Segment, u32)> {
    let polygon = floor.polygon(node.polygon);
    if node.seed {
        let whole = |(edge, (a, b))| (edge, (floor.vertex(a), floor.vertex(b)), 1);
        return polygon.edges().enumerate().map(whole).collect();
    }
    let corners: Vec<Vec2> = polygon.corners.iter().map(|&v| floor.vertex(v)).collect();
    let entry = polygon.corners.iter().position(|&v| v == node.second).expect("an entry edge") as u32;
    let walk = if switches.triangles { Mesh::edges_between } else { GeneralWalk::edges_between };
    let part = |([edge, _], part, kind): ([u32; 2], Segment, u32)| (edge as usize, part, kind);
    walk(&corners, entry, node.root, node.interval).into_iter().map(part).collect()
}

/// None where the kind is not allowed.
fn root_after(switches: Switches, floor: &Floor, node: &Node, kind: u32, whole: Segment, corners: Segment) -> Option<Vec2> {
    let lands = |end: Vec2, vertex: Vec2| {
        if switches.landing {
            Mesh::lands_on(end, vertex, node.root)
        } else {
            lands_on(end, vertex)
        }
    };
    let (end, turn, own_end_lands) = match kind {
        0 => (node.interval.1, node.second, !switches.own_left || lands(whole.1, corners.1)),
        2 => (node.interval.0, node.first, !switches.own_right || lands(whole.0, corners.0)),
        _ => return Some(node.root),
    };
    let vertex = floor.vertex(turn);
    let is_allowed = lands(end, vertex) && floor.turns_at(turn) && own_end_lands;
    is_allowed.then_some(if switches.root { end } else { vertex })
}

fn named_by_both(floor: &Floor, own: u32, first: u32, second: u32) -> u32 {
    let has_both = |p: &u32| *p != own && [first, second].iter().all(|v| floor.polygon(*p).corners.contains(v));
    (0..floor.polygons.len() as u32).find(has_both).unwrap_or(WALL)
}

fn is_one_way(floor: &Floor, p: u32) -> bool {
    let mut named: Vec<u32> = floor.polygon(p).neighbours.iter().copied().filter(|&q| q != WALL).collect();
    named.sort();
    named.dedup();
    named.len() == 1
}

/// A node that is made alone, and not in the goal polygon, is expanded in place, so many times at most.
pub const CHAINED: usize = 64;

/// What the Rust puts into its queue when it expands a node, where `following` has all switches as it has them: without a
/// node whose distance or heuristic is NaN or whose root is known to be nearer, and after chains in place.
pub fn queued(switches: Switches, floor: &Floor, asked: &Asked) -> Vec<Node> {
    let mut records = vec![(asked.node.root, 0.0)];
    let (mut asked, mut distance) = (*asked, 0.0);
    for chained in 0.. {
        let mut made = Vec::new();
        for node in following(switches, floor, &asked) {
            let leg = if node.root != asked.node.root { asked.node.root.distance(node.root) } else { 0.0 };
            if (distance + leg).is_nan() || Mesh::heuristic(node.root, asked.goal, node.interval).is_nan() {
                continue;
            }
            match records.iter_mut().find(|record| record.0 == node.root) {
                Some(record) if record.1 < distance + leg => continue,
                Some(record) => record.1 = distance + leg,
                None => records.push((node.root, distance + leg)),
            }
            made.push((node, distance + leg));
        }
        if asked.node.seed || made.len() != 1 || made[0].0.polygon == asked.goal_polygon || chained == CHAINED {
            return made.into_iter().map(|(node, _)| node).collect();
        }
        asked.left = asked.node.polygon;
        (asked.node, distance) = made[0];
    }
    unreachable!()
}
