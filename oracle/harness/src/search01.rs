//! The search from the documents' own sentences (01, "The search", and 02, M-130), over the steps of `steps01`. Small and slow: it
//! is there to say what the documents answer on a small floor.

use glam::Vec2;
use polyanya::Mesh;

use crate::floor::{is_in_range, Floor};
use crate::steps01::{enter, seed, steps_from, Node, Step};

/// The most places that a caller can lend.
pub const PLACES: usize = 4096;
/// "The entry without a budget uses 4,096."
pub const BUDGET: usize = 4096;
/// The words of an entry, and what stands in each where none is entered.
pub const ENTRY: usize = 10;
const UNUSED: u32 = 0xFFFF_FFFF;
/// "recording once that count is above 512"
pub const STALLED: usize = 512;

/// What a search may use: the places, the entries of the table, and the steps.
#[derive(Clone, Copy)]
pub struct Lends {
    pub places: usize,
    pub entries: usize,
    pub budget: usize,
}

impl Lends {
    /// A search pops fewer nodes than there are places, so more entries change no answer.
    pub const MOST: Lends = Lends { places: PLACES, entries: PLACES, budget: BUDGET };
}

/// A node that was made.
struct Place {
    node: Node,
    parent: usize,
    /// Whether its root is another than its parent's, by !=.
    turned: bool,
    distance: f32,
    heuristic: f32,
    /// The step that led here; the seed has none.
    step: Option<Step>,
}

/// The number that comes back, the counted steps, the route on 0, and the table where recording began.
pub struct Answer {
    pub number: u32,
    pub pops: usize,
    pub route: Option<Route>,
    pub table: Option<Table>,
}

impl Answer {
    /// The number and the route file that a caller gets whose output has so many bytes. "13 comes after found"
    pub fn written(&self, room: usize) -> (u32, Vec<u8>) {
        match self.route.as_ref().map(Route::bytes) {
            Some(bytes) if bytes.len() > room => (13, Vec::new()),
            Some(bytes) => (0, bytes),
            None => (self.number, Vec::new()),
        }
    }
}

pub struct Route {
    pub seed: Node,
    pub steps: Vec<Step>,
    /// The goal is the last.
    pub points: Vec<Vec2>,
    pub length: f32,
}

impl Route {
    /// The route file: "Seed: 1, polygon, start x, y, 16 zero bytes. Step: kind .. End: 5, number of points, goal x, y, length, 12 zero
    /// bytes."
    fn bytes(&self) -> Vec<u8> {
        let (start, goal) = (self.seed.root, self.points[self.points.len() - 1]);
        let [from_x, from_y, to_x, to_y, length] = [start.x, start.y, goal.x, goal.y, self.length].map(f32::to_bits);
        let mut records = vec![[1, self.seed.polygon, from_x, from_y, 0, 0, 0, 0]];
        records.extend(self.steps.iter().map(Step::words));
        records.push([5, self.points.len() as u32, to_x, to_y, length, 0, 0, 0]);
        records.into_iter().flatten().flat_map(u32::to_le_bytes).collect()
    }
}

/// The f32 sum of the legs, in order.
pub fn length(start: Vec2, points: &[Vec2]) -> f32 {
    points.iter().fold((0.0, start), |(total, from), &to| (total + from.distance(to), to)).0
}

/// The entries of the lent table, once they are laid out.
pub struct Table(Vec<[u32; ENTRY]>);

/// What comes of a node that is looked up.
enum Met {
    New,
    Seen,
    /// "a new entry needed and the table full"
    NoRoom,
}

impl Table {
    fn laid_out(entries: usize) -> Table {
        Table(vec![[UNUSED; ENTRY]; entries])
    }

    /// "found by a sum that wraps at 32 bits, with collisions settled by comparing all ten", in the next entry, behind the last the first
    fn enter(&mut self, key: [u32; ENTRY]) -> Met {
        let sum = key.iter().fold(0, |sum: u32, &word| sum.wrapping_add(word)) as usize;
        let entries = self.0.len();
        for turn in 0..entries {
            let entry = &mut self.0[(sum + turn) % entries];
            if *entry == key {
                return Met::Seen;
            }
            if entry[ENTRY - 1] == UNUSED {
                *entry = key;
                return Met::New;
            }
        }
        Met::NoRoom
    }

    pub fn words(&self) -> Vec<u32> {
        self.0.concat()
    }

    /// How many entries are used.
    pub fn used(&self) -> usize {
        self.0.iter().filter(|entry| entry[ENTRY - 1] != UNUSED).count()
    }
}

/// "last_f, a count of pops since it last rose, and recording once that count is above 512"
struct Stall {
    last_f: f32,
    pops: usize,
    entries: usize,
    table: Option<Table>,
}

impl Stall {
    /// Not while recording, which never ends.
    fn count(&mut self, f: f32) {
        if self.table.is_some() {
            return;
        }
        if f > self.last_f {
            (self.last_f, self.pops) = (f, 0);
            return;
        }
        self.pops += 1;
        if self.pops > STALLED {
            self.table = Some(Table::laid_out(self.entries));
        }
    }
}

struct Search<'f> {
    floor: &'f Floor,
    goal: Vec2,
    goal_polygon: u32,
    lent: usize,
    places: Vec<Place>,
    /// Places that wait, and each root's least distance.
    queue: Vec<usize>,
    records: Vec<(Vec2, f32)>,
    stall: Stall,
}

/// The floor must have passed tests 2 to 6.
pub fn search(floor: &Floor, start: Vec2, goal: Vec2, lends: Lends) -> Answer {
    let Lends { places: lent, entries, budget } = lends;
    let refused = |number| Answer { number, pops: 0, route: None, table: None };
    // "question not 16 bytes, or start or goal coordinate": here it always has the bytes
    if ![start, goal].iter().all(is_in_range) {
        return refused(7);
    }
    let Some(start_polygon) = floor.polygon_of(start) else { return refused(8) };
    let Some(goal_polygon) = floor.polygon_of(goal) else { return refused(9) };
    if lent == 0 {
        return refused(10);
    }
    let origin =
        Place { node: seed(start, start_polygon), parent: 0, turned: false, distance: 0.0, heuristic: 0.0, step: None };
    let (places, records) = (vec![origin], vec![(start, 0.0)]);
    // "last_f begins below every f"
    let stall = Stall { last_f: f32::NEG_INFINITY, pops: 0, entries: entries.min(PLACES), table: None };
    let mut search = Search { floor, goal, goal_polygon, lent: lent.min(PLACES), places, queue: Vec::new(), records, stall };
    // "Start and goal in one polygon: found, no steps"
    if start_polygon == goal_polygon {
        return Answer { number: 0, pops: 0, route: Some(search.route(0)), table: None };
    }
    let (number, pops) = search.run(budget);
    let route = (number == 0).then(|| search.route(search.queue[0]));
    Answer { number, pops, route, table: search.stall.table }
}

impl Search<'_> {
    /// The number and the pops. On 0 the node found is left as the queue's only one.
    fn run(&mut self, budget: usize) -> (u32, usize) {
        // "place 0 is the seed with distance 0 and all its steps are made"
        if !self.make_steps(0) {
            return (11, 0);
        }
        for pops in 0.. {
            // "empty queue is 1; budget spent is 12; else pop .. count one"
            if self.queue.is_empty() {
                return (1, pops);
            }
            if pops == budget {
                return (12, pops);
            }
            let place = self.pop();
            self.stall.count(self.f(place));
            let Place { node, distance, .. } = self.places[place];
            // "Dropped if its root has a strictly smaller distance."
            if self.recorded(node.root).is_some_and(|record| record < distance) {
                continue;
            }
            // "after the root test and before the goal test, a popped node whose ten words have been seen is dropped"
            let key = self.key(place);
            match self.stall.table.as_mut().map_or(Met::New, |table| table.enter(key)) {
                Met::New => (),
                Met::Seen => continue,
                Met::NoRoom => return (14, pops + 1),
            }
            if node.polygon == self.goal_polygon {
                self.queue = vec![place];
                return (0, pops + 1);
            }
            if !self.make_steps(place) {
                return (11, pops + 1);
            }
        }
        unreachable!()
    }

    /// "pop the node of least f = distance + heuristic, equal f by lower place"
    fn pop(&mut self) -> usize {
        let mut least = 0;
        for (at, &place) in self.queue.iter().enumerate() {
            let best = self.queue[least];
            if self.f(place) < self.f(best) || (self.f(place) == self.f(best) && place < best) {
                least = at;
            }
        }
        self.queue.remove(least)
    }

    fn f(&self, place: usize) -> f32 {
        self.places[place].distance + self.places[place].heuristic
    }

    /// "root, interval, edge, polygon left, polygon entered, as bits"
    fn key(&self, place: usize) -> [u32; ENTRY] {
        let Place { node: Node { root, interval: (right, left), first, second, polygon, .. }, parent, .. } = self.places[place];
        let [a, b, c, d, e, f] = [root.x, root.y, right.x, right.y, left.x, left.y].map(f32::to_bits);
        [a, b, c, d, e, f, first, second, self.places[parent].node.polygon, polygon]
    }

    fn recorded(&self, root: Vec2) -> Option<f32> {
        self.records.iter().find(|record| record.0 == root).map(|record| record.1)
    }

    /// False when a node needs a place and none is left.
    fn make_steps(&mut self, parent: usize) -> bool {
        let from = self.places[parent].node;
        let steps = steps_from(self.floor, self.goal_polygon, &from);
        steps.into_iter().all(|step| self.make(parent, from, step))
    }

    fn make(&mut self, parent: usize, from: Node, step: Step) -> bool {
        let node = enter(self.floor, &from, &step);
        let turned = node.root != from.root;
        let leg = if turned { from.root.distance(node.root) } else { 0.0 };
        let before = self.places[parent].distance;
        // "distance plus the leg when the root changed, and the heuristic; NaN in either makes nothing"
        let distance = if turned { before + leg } else { before };
        let heuristic = Mesh::heuristic(node.root, self.goal, node.interval);
        if distance.is_nan() || heuristic.is_nan() {
            return true;
        }
        if self.places.len() == self.lent {
            return false;
        }
        let place = self.places.len();
        self.places.push(Place { node, parent, turned, distance, heuristic, step: Some(step) });
        // "dropped only if its root (by ==) has a strictly smaller distance on record, else that record becomes its own"
        match self.records.iter_mut().find(|record| record.0 == node.root) {
            Some(record) if record.1 < distance => return true,
            Some(record) => record.1 = distance,
            None => self.records.push((node.root, distance)),
        }
        self.queue.push(place);
        true
    }

    /// "Points: the new root at each place of the parent chain, oldest first .. then turning_point if any; then the goal."
    fn route(&self, found: usize) -> Route {
        let mut chain = vec![found];
        while chain[chain.len() - 1] != 0 {
            chain.push(self.places[chain[chain.len() - 1]].parent);
        }
        chain.reverse();
        let turned = chain.iter().map(|&place| &self.places[place]).filter(|place| place.turned);
        let mut points: Vec<Vec2> = turned.map(|place| place.node.root).collect();
        if found != 0 {
            let Node { root, interval, .. } = self.places[found].node;
            points.extend(Mesh::turning_point(root, self.goal, interval));
        }
        points.push(self.goal);
        let seed = self.places[0].node;
        let length = length(seed.root, &points);
        Route { seed, steps: chain.iter().filter_map(|&place| self.places[place].step).collect(), points, length }
    }
}
