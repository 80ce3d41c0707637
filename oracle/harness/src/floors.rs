//! Random floors that tests 2 to 6 accept, and random nodes on them: those that steps reach from a seed, and any others.

use glam::Vec2;

use crate::floor::{Floor, Polygon, WALL};
use crate::halls::turned;
use crate::random::Random;
use crate::steps01::{enter, seed, steps_from, Node, Segment};

/// Document 01's limit for a coordinate.
const LIMIT: f32 = 16_384.0;
/// Steps of a walk, at most.
const STEPS: usize = 12;

/// A node and what the steps out of it depend on beside the floor.
#[derive(Clone, Copy, Debug)]
pub struct Asked {
    pub goal: Vec2,
    /// The goal's polygon.
    pub goal_polygon: u32,
    pub node: Node,
    /// The polygon that was left, or a wall's number where there is none.
    pub left: u32,
}

/// Which nodes, or nodes on which floors.
#[derive(Clone, Copy, Debug, PartialEq)]
pub enum Class {
    /// A seed.
    Seed,
    /// Where steps lead from a seed.
    Reached,
    /// Over any edge, with any interval and any root.
    Any,
    /// Of the three above, on a floor with a wall in every second place where none was.
    Walled,
    /// On a floor with three corners of a polygon, one after the other, exactly in a line.
    Straight,
    /// On a floor that has a coordinate beyond half of the limit.
    Large,
    /// A floor or a node that is changed in one place, so that most are refused.
    Changed,
}

pub const CLASSES: [Class; 7] =
    [Class::Seed, Class::Reached, Class::Any, Class::Walled, Class::Straight, Class::Large, Class::Changed];

pub struct Floors {
    random: Random,
}

impl Floors {
    pub fn new(seed: u64) -> Floors {
        Floors { random: Random::new(seed) }
    }

    /// The vertices are drawn about a square of side 1 or some, then laid anywhere at any size.
    pub fn floor(&mut self) -> Floor {
        let (vertices, mut polygons) = match self.random.below(8) {
            0..=2 => self.grid(),
            3 | 4 => self.ring(),
            5 | 6 => self.row(),
            _ => self.pair(),
        };
        for corners in &mut polygons {
            let first = self.random.below(corners.len());
            corners.rotate_left(first);
        }
        for place in (1..polygons.len()).rev() {
            let other = self.random.below(place + 1);
            polygons.swap(place, other);
        }
        let mut floor = Floor::linked(self.laid(vertices), &polygons);
        self.wall_up(&mut floor);
        floor
    }

    /// One of the class.
    pub fn floor_of(&mut self, class: Class) -> Floor {
        let mut floor = self.floor();
        match class {
            Class::Walled => self.wall_one_in(&mut floor, 2),
            Class::Straight => {
                while !floor.polygons.iter().any(|polygon| has_corners_in_line(&floor, polygon)) {
                    floor = self.floor();
                }
            }
            Class::Large => {
                while !floor.vertices.iter().any(|vertex| vertex.x.abs().max(vertex.y.abs()) > LIMIT / 2.0) {
                    floor = self.floor();
                }
            }
            _ => (),
        }
        floor
    }

    // ---- the shapes

    /// Cells of a grid: a quadrilateral, two triangles or none; up to three quadrilaterals of a row make one polygon, whose
    /// corners then lie in a line where nothing is moved.
    fn grid(&mut self) -> (Vec<Vec2>, Vec<Vec<u32>>) {
        let (wide, high) = (1 + self.random.below(4), 1 + self.random.below(4));
        let moved = self.random.pick(&[0.0, 0.0, 0.25, 0.45]);
        let mut vertices = Vec::new();
        for y in 0..=high {
            for x in 0..=wide {
                let off = self.square() * moved;
                vertices.push(Vec2::new(x as f32, y as f32) + off);
            }
        }
        let number = |x: usize, y: usize| (y * (wide + 1) + x) as u32;
        let mut polygons = Vec::new();
        for y in 0..high {
            let mut x = 0;
            while x < wide {
                let cells = (1 + self.random.below(3)).min(wide - x);
                let [a, b, c, d] = [number(x, y), number(x + 1, y), number(x + 1, y + 1), number(x, y + 1)];
                match self.random.below(8) {
                    0 => x += 1,
                    1 => polygons.extend([vec![a, b, c], vec![a, c, d]]),
                    2 => polygons.extend([vec![a, b, d], vec![b, c, d]]),
                    _ => {
                        let lower = (0..=cells).map(|i| number(x + i, y));
                        let upper = (0..=cells).rev().map(|i| number(x + i, y + 1));
                        polygons.push(lower.chain(upper).collect());
                        x += cells - 1;
                    }
                }
                x += 1;
            }
        }
        if polygons.is_empty() {
            polygons.push(vec![number(0, 0), number(1, 0), number(1, 1), number(0, 1)]);
        }
        (vertices, polygons)
    }

    /// Polygons round one vertex, and perhaps a polygon behind each of them.
    fn ring(&mut self) -> (Vec<Vec2>, Vec<Vec<u32>>) {
        let count = 3 + self.random.below(5);
        let (with_middle, with_outer) = (self.random.below(2) == 0, self.random.below(2) == 0);
        let mut vertices = vec![Vec2::ZERO];
        for (from, out) in [(0.0, 1.0), (0.5, 1.0), (0.0, 2.0)] {
            for place in 0..count {
                let turn = 4.0 * (place as f32 + from) / count as f32;
                let off = self.square() * self.random.pick(&[0.0, 0.0, 0.125]);
                vertices.push(turned(turn) * out + off);
            }
        }
        let [spoke, middle, outer] = [0, count, 2 * count].map(|first| move |place: usize| (1 + first + place % count) as u32);
        let mut polygons = Vec::new();
        for place in 0..count {
            let bend = with_middle.then(|| middle(place));
            let inner = [0, spoke(place)].into_iter().chain(bend).chain([spoke(place + 1)]);
            if self.random.below(12) != 0 {
                polygons.push(inner.collect());
            }
            if with_outer && self.random.below(4) != 0 {
                let behind = [spoke(place), outer(place), outer(place + 1), spoke(place + 1)];
                polygons.push(behind.into_iter().chain(bend).collect());
            }
        }
        if polygons.is_empty() {
            polygons.push(vec![0, spoke(0), spoke(1)]);
        }
        (vertices, polygons)
    }

    /// A corridor between two lines of points: triangles and quadrilaterals in a row.
    fn row(&mut self) -> (Vec<Vec2>, Vec<Vec<u32>>) {
        let mut vertices = vec![Vec2::ZERO, Vec2::new(0.0, 1.0)];
        let (mut lower, mut upper) = (0, 1);
        let mut polygons = Vec::new();
        let bend = self.square() * self.random.pick(&[0.0, 0.5, 1.0]);
        for _ in 0..1 + self.random.below(9) {
            let off = Vec2::new(self.random.fraction() + 0.125, 0.0) + bend * self.random.fraction();
            let (below, above) = (vertices[lower as usize] + off, vertices[upper as usize] + off);
            let next = vertices.len() as u32;
            match self.random.below(3) {
                0 => {
                    vertices.push(below);
                    polygons.push(vec![lower, next, upper]);
                    lower = next;
                }
                1 => {
                    vertices.push(above);
                    polygons.push(vec![lower, next, upper]);
                    upper = next;
                }
                _ => {
                    vertices.extend([below, above]);
                    polygons.push(vec![lower, next, next + 1, upper]);
                    (lower, upper) = (next, next + 1);
                }
            }
        }
        (vertices, polygons)
    }

    /// Two polygons that share up to six edges, in one line or nearly, and one more at either side.
    fn pair(&mut self) -> (Vec<Vec2>, Vec<Vec<u32>>) {
        let shared = 2 + self.random.below(5);
        let moved = self.random.pick(&[0.0, 0.0, 0.001, 0.125]);
        let mut vertices = Vec::new();
        for place in 0..=shared {
            let off = self.square() * moved;
            vertices.push(Vec2::new(place as f32, 0.0) + off);
        }
        let last = shared as u32;
        let middle = shared as f32 * self.random.fraction();
        vertices.extend([Vec2::new(middle, 1.0), Vec2::new(middle, -1.0), Vec2::new(middle, 2.0), Vec2::new(middle, -2.0)]);
        let [above, below, over, under] = [1, 2, 3, 4].map(|after| last + after);
        let mut polygons = vec![(0..=last).chain([above]).collect(), (0..=last).rev().chain([below]).collect()];
        polygons.extend([vec![last, over, above], vec![above, over, 0], vec![0, under, below]]);
        polygons.truncate(2 + self.random.below(4));
        (vertices, polygons)
    }

    // ---- where they lie

    /// At a size from thousandths up to the whole range, anywhere in it; now and then without any order.
    fn laid(&mut self, mut vertices: Vec<Vec2>) -> Vec<Vec2> {
        let size = self.random.pick(&[0.001, 0.0078125, 0.0625, 1.0, 1.0, 1.0, 7.3, 60.0, 1000.0, 16_384.0]);
        let shift = match self.random.below(4) {
            0 | 1 => Vec2::ZERO,
            2 => Vec2::new(self.random.below(17) as f32 - 8.0, self.random.below(17) as f32 - 8.0),
            _ => self.square() * LIMIT,
        };
        for vertex in &mut vertices {
            let there = *vertex * size + shift;
            *vertex = Vec2::new(there.x.clamp(-LIMIT, LIMIT), there.y.clamp(-LIMIT, LIMIT));
        }
        match self.random.below(12) {
            // Some vertices on each other.
            0 => {
                let (from, to) = (self.random.below(vertices.len()), self.random.below(vertices.len()));
                vertices[to] = vertices[from];
            }
            // No order at all.
            1 => {
                for vertex in &mut vertices {
                    *vertex = Vec2::new(self.random.below(9) as f32 - 4.0, self.random.below(9) as f32 - 4.0);
                }
            }
            // A zero of the other sign.
            2 => vertices.iter_mut().for_each(|vertex| *vertex = Vec2::new(vertex.x * -1.0, vertex.y * -1.0)),
            _ => (),
        }
        vertices
    }

    fn wall_up(&mut self, floor: &mut Floor) {
        let one_in = self.random.pick(&[0, 0, 4, 12]);
        if one_in != 0 {
            self.wall_one_in(floor, one_in);
        }
    }

    fn wall_one_in(&mut self, floor: &mut Floor, one_in: usize) {
        for p in 0..floor.polygons.len() {
            let edges: Vec<_> = floor.polygons[p].edges().collect();
            for (a, b) in edges {
                if self.random.below(one_in) == 0 {
                    floor.wall_up(a, b);
                }
            }
        }
    }

    // ---- points and nodes

    /// Somewhere in or about a polygon: a corner, on an edge, about a corner, or anywhere between the corners.
    pub fn point(&mut self, floor: &Floor) -> Vec2 {
        let p = self.random.below(floor.polygons.len()) as u32;
        let corners: Vec<Vec2> = floor.polygon(p).corners.iter().map(|&v| floor.vertex(v)).collect();
        let i = self.random.below(corners.len());
        let (corner, next) = (corners[i], corners[(i + 1) % corners.len()]);
        match self.random.below(8) {
            0 => corner,
            1 => corner + (next - corner) * self.random.pick(&[0.5, 0.25, 0.001]),
            2 => corner + self.square() * self.random.pick(&[0.001, 0.002, 0.01]),
            _ => {
                let mut between = corner;
                for &other in &corners {
                    between = between + (other - between) * self.random.fraction();
                }
                between
            }
        }
    }

    pub fn asked(&mut self, floor: &Floor) -> Asked {
        let goal = self.point(floor);
        let any = self.random.below(floor.polygons.len()) as u32;
        let goal_polygon = floor.polygon_of(goal).unwrap_or(any);
        let (left, node) = if self.random.below(4) == 0 { self.any_node(floor) } else { self.walked(floor, goal_polygon) };
        Asked { goal, goal_polygon, node, left }
    }

    /// One of the class, or none where the floor seems to have none.
    pub fn asked_of(&mut self, class: Class, floor: &Floor) -> Option<Asked> {
        const TRIES: usize = 8;
        let is_of = |asked: &Asked| match class {
            Class::Seed => asked.node.seed,
            Class::Reached => !asked.node.seed,
            _ => true,
        };
        (0..TRIES).map(|_| self.drawn(class, floor)).find(is_of)
    }

    fn drawn(&mut self, class: Class, floor: &Floor) -> Asked {
        let mut asked = self.asked(floor);
        let drawn = match class {
            Class::Seed => {
                let any = self.random.below(floor.polygons.len()) as u32;
                let start = self.point(floor);
                (WALL, seed(start, floor.polygon_of(start).unwrap_or(any)))
            }
            Class::Reached => self.walked(floor, asked.goal_polygon),
            Class::Any => self.any_node(floor),
            _ => (asked.left, asked.node),
        };
        (asked.left, asked.node) = drawn;
        asked
    }

    /// Another number in one place of the floor or of the node: one that is in use, or the next to the last that is, or none at all.
    pub fn change(&mut self, floor: &mut Floor, node: &mut Node) {
        let (vertices, polygons) = (floor.vertices.len() as u32, floor.polygons.len() as u32);
        let vertex = self.number(vertices);
        let polygon = self.number(polygons);
        let p = self.random.below(floor.polygons.len());
        let i = self.random.below(floor.polygons[p].corners.len());
        match self.random.below(8) {
            0 => node.polygon = polygon,
            1 => node.first = vertex,
            2 | 3 => node.second = vertex,
            // The wall's number in a corner's slot would stand for no corner.
            4 => floor.polygons[p].corners[i] = vertex.min(WALL - 1),
            5 => floor.polygons[p].neighbours[i] = polygon,
            6 => {
                let v = self.random.below(floor.vertices.len());
                floor.vertices[v].x = self.random.pick(&[LIMIT, -LIMIT, 16_384.002, -16_384.002, f32::INFINITY, f32::NAN, -0.0]);
            }
            _ => {
                floor.polygons[p].corners.remove(i);
                floor.polygons[p].neighbours.remove(i);
            }
        }
    }

    fn number(&mut self, count: u32) -> u32 {
        let used = self.random.below(count as usize) as u32;
        self.random.pick(&[used, used, used, count, count + 1, WALL, WALL - 1])
    }

    /// Where so many steps lead from a seed, or fewer where none goes on. From the goal polygon none does, so it is mostly kept out of.
    fn walked(&mut self, floor: &Floor, goal: u32) -> (u32, Node) {
        let any = self.random.below(floor.polygons.len()) as u32;
        let mut start = self.point(floor);
        if floor.polygon_of(start) == Some(goal) {
            start = self.point(floor);
        }
        let mut left = floor.polygon_of(start).unwrap_or(any);
        let mut node = seed(start, left);
        for _ in 0..self.random.below(STEPS) {
            let mut steps = steps_from(floor, goal, &node);
            if self.random.below(8) != 0 {
                steps.retain(|step| step.polygon != goal);
            }
            if steps.is_empty() {
                break;
            }
            let step = steps[self.random.below(steps.len())];
            left = node.polygon;
            node = enter(floor, &node, &step);
        }
        (left, node)
    }

    /// Over any edge, a wall too, with any interval and any root.
    fn any_node(&mut self, floor: &Floor) -> (u32, Node) {
        let polygon = self.random.below(floor.polygons.len()) as u32;
        let Polygon { corners, neighbours } = floor.polygon(polygon);
        let entry = self.random.below(corners.len());
        let (first, second) = (floor.polygon(polygon).corner_after(entry), corners[entry]);
        let ends = (floor.vertex(first), floor.vertex(second));
        let interval = (self.end(floor, ends), self.end(floor, (ends.1, ends.0)));
        let root = match self.random.below(8) {
            0 => interval.0,
            1 => interval.1,
            2 => ends.0,
            3 => interval.0 + (interval.1 - interval.0) * (4.0 * self.random.fraction() - 2.0),
            4 => self.point(floor),
            _ => {
                // Behind the edge.
                let (along, away) = (interval.1 - interval.0, self.random.fraction() * 4.0);
                let across = Vec2::new(along.y, -along.x);
                interval.0 + along * self.random.fraction() + across * -away
            }
        };
        (neighbours[entry], Node { seed: false, polygon, first, second, interval, root })
    }

    /// An end of an interval on the edge that begins at its own vertex: the vertex, about 0.002 from it, along the edge, anywhere.
    fn end(&mut self, floor: &Floor, (own, other): Segment) -> Vec2 {
        let along = other - own;
        match self.random.below(8) {
            0..=2 => own,
            3 => own + along * (self.random.pick(&[0.0005, 0.0015, 0.00199, 0.002, 0.0021]) / along.length()),
            4 => own + self.square() * 0.003,
            5 => self.point(floor),
            _ => own + along * self.random.fraction(),
        }
    }

    /// Anywhere in the square from -1 to 1.
    fn square(&mut self) -> Vec2 {
        Vec2::new(2.0 * self.random.fraction() - 1.0, 2.0 * self.random.fraction() - 1.0)
    }
}

/// Exactly: the products of two differences of floats this size are whole in f64.
fn has_corners_in_line(floor: &Floor, polygon: &Polygon) -> bool {
    let corner = |i: usize| {
        let vertex = floor.vertex(polygon.corners[i % polygon.corners.len()]);
        (vertex.x as f64, vertex.y as f64)
    };
    (0..polygon.corners.len()).any(|i| {
        let ((ax, ay), (bx, by), (cx, cy)) = (corner(i), corner(i + 1), corner(i + 2));
        (bx - ax) * (cy - ay) == (by - ay) * (cx - ax)
    })
}
