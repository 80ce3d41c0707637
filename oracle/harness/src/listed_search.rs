//! The documents' search with each difference that docs/DIFFERENCES.md lists, of the steps and of the search, as a switch. With
//! all switches off it must find what `search01` finds, with all on what the Rust finds: then the list is whole.

use std::cmp::Ordering;
use std::collections::{BinaryHeap, HashMap, HashSet};

use glam::Vec2;
use polyanya::Mesh;

use crate::floor::{Floor, WALL};
use crate::floors::Asked;
use crate::listed::{following, Switches, CHAINED};
use crate::search01::{length, BUDGET, PLACES, STALLED};
use crate::steps01::{seed, Node};

/// The listed points. A set of them is a number with the bit of each that it holds.
pub const POINTS: [&str; 14] = [
    "the limit of stalls",
    "last_f from 0",
    "triangles",
    "landing",
    "the new root",
    "kind 3",
    "kind 4",
    "going back",
    "dead ends",
    "small intervals",
    "the neighbour across an edge",
    "chains in place",
    "equal f",
    "the limits of pops and places",
];
pub const NONE: u32 = 0;
pub const ALL: u32 = (1 << POINTS.len()) - 1;

/// The Rust's way, where a switch is on.
#[derive(Clone, Copy)]
struct Ways {
    steps: Switches,
    /// A node that is made alone is expanded in place.
    chains: bool,
    /// Of equal f the larger distance goes first, and where that is equal too, what Rust's heap has in front.
    equal_f: bool,
    /// Stalls are recorded after as many pops without a higher f as there are polygons, where these are fewer than 512.
    stalls: bool,
    /// The highest f begins at 0, so that a first pop with f 0 counts as one without a higher f.
    from_zero: bool,
    /// Ten times as many pops as there are polygons, and any number of places.
    limits: bool,
}

fn ways(points: u32) -> Ways {
    let on = |name: &str| POINTS.iter().position(|&point| point == name).is_some_and(|place| points >> place & 1 == 1);
    let steps = Switches {
        triangles: on("triangles"),
        landing: on("landing"),
        root: on("the new root"),
        own_right: on("kind 3"),
        own_left: on("kind 4"),
        back: on("going back"),
        dead_ends: on("dead ends"),
        small: on("small intervals"),
        neighbour: on("the neighbour across an edge"),
    };
    Ways {
        steps,
        chains: on("chains in place"),
        equal_f: on("equal f"),
        stalls: on("the limit of stalls"),
        from_zero: on("last_f from 0"),
        limits: on("the limits of pops and places"),
    }
}

/// The points and the length.
pub type Found = (Vec<Vec2>, f32);

struct Place {
    node: Node,
    /// The polygon that was left.
    left: u32,
    parent: usize,
    turned: bool,
    distance: f32,
    heuristic: f32,
}

struct Queued {
    f: f32,
    distance: f32,
    place: usize,
    /// Whether the Rust's order holds.
    rusts: bool,
}

/// Rust's heap pops the greatest.
impl Ord for Queued {
    fn cmp(&self, other: &Queued) -> Ordering {
        let by_f = other.f.total_cmp(&self.f);
        let after = if self.rusts { self.distance.total_cmp(&other.distance) } else { other.place.cmp(&self.place) };
        by_f.then(after)
    }
}

impl PartialOrd for Queued {
    fn partial_cmp(&self, other: &Queued) -> Option<Ordering> {
        Some(self.cmp(other))
    }
}

impl PartialEq for Queued {
    fn eq(&self, other: &Queued) -> bool {
        self.cmp(other) == Ordering::Equal
    }
}

impl Eq for Queued {}

struct Search<'f> {
    floor: &'f Floor,
    goal: Vec2,
    goal_polygon: u32,
    ways: Ways,
    places: Vec<Place>,
    queue: BinaryHeap<Queued>,
    /// Made, and not yet in the queue.
    made: Vec<Queued>,
    records: HashMap<[u32; 2], f32>,
    seen: HashSet<[u32; 10]>,
    last_f: f32,
    stalled: usize,
    recording: bool,
}

/// Both points must be on the floor. None where no route is found, for whatever reason.
pub fn search(points: u32, floor: &Floor, start: Vec2, goal: Vec2) -> Option<Found> {
    let (start_polygon, goal_polygon) = (floor.polygon_of(start)?, floor.polygon_of(goal)?);
    let node = seed(start, start_polygon);
    let origin = Place { node, left: WALL, parent: 0, turned: false, distance: 0.0, heuristic: 0.0 };
    let ways = ways(points);
    let mut search = Search {
        floor,
        goal,
        goal_polygon,
        ways,
        places: vec![origin],
        queue: BinaryHeap::new(),
        made: Vec::new(),
        records: HashMap::from([(key(start), 0.0)]),
        seen: HashSet::new(),
        last_f: if ways.from_zero { 0.0 } else { f32::NEG_INFINITY },
        stalled: 0,
        recording: false,
    };
    let found = if start_polygon == goal_polygon { 0 } else { search.run()? };
    Some(search.route(found))
}

/// Equal for roots that are equal by ==: they have no NaN, and adding zero takes the sign of a zero away.
fn key(root: Vec2) -> [u32; 2] {
    [(root.x + 0.0).to_bits(), (root.y + 0.0).to_bits()]
}

impl Search<'_> {
    /// The place that was found.
    fn run(&mut self) -> Option<usize> {
        self.expand(0)?;
        let most = if self.ways.limits { 10 * self.floor.polygons.len() } else { BUDGET };
        for _ in 0..most {
            let place = self.queue.pop()?.place;
            self.count(place);
            let Place { node, distance, .. } = self.places[place];
            let beaten = self.records.get(&key(node.root)).is_some_and(|&record| record < distance);
            if beaten || (self.recording && !self.seen.insert(words(&self.places[place]))) {
                continue;
            }
            if node.polygon == self.goal_polygon {
                return Some(place);
            }
            self.expand(place)?;
        }
        None
    }

    /// Whether f went up.
    fn count(&mut self, place: usize) {
        if self.recording {
            return;
        }
        let f = self.places[place].distance + self.places[place].heuristic;
        if f > self.last_f {
            (self.last_f, self.stalled) = (f, 0);
        } else {
            self.stalled += 1;
            let limit = if self.ways.stalls { self.floor.polygons.len().min(STALLED) } else { STALLED };
            self.recording = self.stalled > limit;
        }
    }

    /// None when a node needs a place and none is left.
    fn expand(&mut self, from: usize) -> Option<()> {
        let mut place = from;
        for chained in 0.. {
            self.make_steps(place)?;
            let alone = self.ways.chains && from != 0 && self.made.len() == 1 && chained < CHAINED;
            if !alone || self.places[self.made[0].place].node.polygon == self.goal_polygon {
                break;
            }
            place = self.made.remove(0).place;
        }
        self.queue.extend(self.made.drain(..));
        Some(())
    }

    fn make_steps(&mut self, parent: usize) -> Option<()> {
        let Place { node, left, .. } = self.places[parent];
        let asked = Asked { goal: self.goal, goal_polygon: self.goal_polygon, node, left };
        following(self.ways.steps, self.floor, &asked).into_iter().try_for_each(|node| self.make(parent, node))
    }

    fn make(&mut self, parent: usize, node: Node) -> Option<()> {
        let from = &self.places[parent];
        let turned = node.root != from.node.root;
        let distance = if turned { from.distance + from.node.root.distance(node.root) } else { from.distance };
        let heuristic = Mesh::heuristic(node.root, self.goal, node.interval);
        if distance.is_nan() || heuristic.is_nan() {
            return Some(());
        }
        let place = self.places.len();
        if !self.ways.limits && place == PLACES {
            return None;
        }
        let left = from.node.polygon;
        self.places.push(Place { node, left, parent, turned, distance, heuristic });
        let record = self.records.entry(key(node.root)).or_insert(distance);
        if *record < distance {
            return Some(());
        }
        *record = distance;
        self.made.push(Queued { f: distance + heuristic, distance, place, rusts: self.ways.equal_f });
        Some(())
    }

    fn route(&self, found: usize) -> Found {
        let mut points = vec![self.goal];
        let Node { root, interval, seed, .. } = self.places[found].node;
        if !seed {
            points.extend(Mesh::turning_point(root, self.goal, interval));
        }
        let mut place = found;
        while place != 0 {
            points.extend(self.places[place].turned.then_some(self.places[place].node.root));
            place = self.places[place].parent;
        }
        points.reverse();
        let length = length(self.places[0].node.root, &points);
        (points, length)
    }
}

/// Everything that a node's steps depend on.
fn words(place: &Place) -> [u32; 10] {
    let mut words = place.node.words();
    words[0] = place.left;
    words
}
