//! How often our search finds no route though links lead from start to goal, with which number, and what helps then: the start or the
//! goal moved a hand's breadth, or a stop on the way.

use glam::Vec2;
use polyanya::Path;

use crate::hall::{Hall, Place};
use crate::lent::Lent;
use crate::{drawn_by, name};

/// The kinds of floor that are looked at: the first of the table.
const GRIDS: usize = 6;
/// Floors of a kind, the first of them the one that is timed, and questions of a floor.
const FLOORS: u64 = 10;
const QUESTIONS: usize = 100;
/// The numbers that a search without a route may end in here.
const MISSES: [u32; 4] = [1, 11, 12, 14];
/// A hand's breadth, eight ways.
const HAND: f32 = 0.1;
const WAYS: [(f32, f32); 8] = [(1.0, 0.0), (0.7, 0.7), (0.0, 1.0), (-0.7, 0.7), (-1.0, 0.0), (-0.7, -0.7), (0.0, -1.0), (0.7, -0.7)];

#[derive(Default)]
struct Counts {
    /// Links lead from start to goal.
    joined: usize,
    /// Ours finds none all the same, by number; and in how many of these each thing helps.
    misses: [usize; 4],
    rusts: usize,
    start_moved: usize,
    goal_moved: usize,
    halfway: usize,
    /// A stop after three, five or seven tenths of the way.
    on_the_way: usize,
    /// How near an end of these is to an edge.
    nearest: f32,
}

pub fn print(lent: &mut Lent) {
    println!("No route though links lead from start to goal, by number, on {FLOORS} floors of a kind, {QUESTIONS} questions on each");
    let columns = ["joined", "1", "11", "12", "14", "Rust finds", "start +0.1", "goal +0.1", "stop at .5", ".3, .5, .7"];
    let columns: String = columns.iter().map(|name| format!("{name:>11}")).collect();
    for (title, inside) in [("start inside", true), ("start on vertex", false)] {
        println!("{title:<16}{columns}");
        let rows: Vec<Counts> = (0..GRIDS).map(|place| counted(place, inside, lent)).collect();
        rows.iter().enumerate().for_each(|(place, counts)| println!("{}", counts.row(place)));
        if inside {
            let nearest = rows.iter().fold(f32::INFINITY, |nearest, counts| nearest.min(counts.nearest));
            println!("Of these that find none no start or goal is nearer than {nearest:.3} to an edge.");
        }
    }
}

fn counted(place: usize, inside: bool, lent: &mut Lent) -> Counts {
    let (shape, polygons) = crate::FLOORS[place];
    let mut counts = Counts { nearest: f32::INFINITY, ..Counts::default() };
    for number in 0..FLOORS {
        let mut halls = drawn_by(place, number);
        let hall = Hall::new(halls.floor(shape, polygons));
        for _ in 0..QUESTIONS {
            let (start, goal) = (halls.point(&hall.floor), halls.point(&hall.floor));
            let start = if inside { Some(start) } else { inner_vertex(&hall, start) };
            if let Some(ends) = start.and_then(|start| hall.ends(start, goal)) {
                counts.add(&hall, ends, lent);
            }
        }
    }
    counts
}

impl Counts {
    fn row(&self, place: usize) -> String {
        let (shape, polygons) = crate::FLOORS[place];
        let helped = [self.rusts, self.start_moved, self.goal_moved, self.halfway, self.on_the_way];
        let counts = [self.joined].into_iter().chain(self.misses).chain(helped);
        format!("{:<16}{}", name(polygons, shape), counts.map(|count| format!("{count:>11}")).collect::<String>())
    }

    fn add(&mut self, hall: &Hall, ends: (Place, Place), lent: &mut Lent) {
        if !hall.joined(ends) {
            return;
        }
        self.joined += 1;
        let ((start, _), (goal, _)) = ends;
        let number = hall.ours(lent, start, goal).0;
        if number == 0 {
            return;
        }
        self.misses[MISSES.iter().position(|&miss| miss == number).expect("a number of a search")] += 1;
        self.nearest = self.nearest.min(to_an_edge(hall, start)).min(to_an_edge(hall, goal));
        let moved = |point: Vec2| WAYS.map(|(x, y)| point + Vec2::new(x, y) * HAND);
        self.start_moved += moved(start).into_iter().any(|start| hall.finds(lent, start, goal)) as usize;
        self.goal_moved += moved(goal).into_iter().any(|goal| hall.finds(lent, start, goal)) as usize;
        let Some(path) = hall.rusts(ends) else { return };
        self.rusts += 1;
        let [halfway, sooner, later] = [0.5, 0.3, 0.7].map(|part| stop(hall, start, &path, part));
        let mut helps = |stop: Vec2| hall.finds(lent, start, stop) && hall.finds(lent, stop, goal);
        let halfway = helps(halfway);
        self.halfway += halfway as usize;
        self.on_the_way += (halfway || helps(sooner) || helps(later)) as usize;
    }
}

/// The middle of the polygon that the way is in after such a part of it.
fn stop(hall: &Hall, start: Vec2, path: &Path, part: f32) -> Vec2 {
    let mut left = part * path.length;
    let mut at = start;
    for &to in &path.path {
        let leg = at.distance(to);
        if left < leg {
            at = at + (to - at) * (left / leg);
            break;
        }
        left -= leg;
        at = to;
    }
    let corners = &hall.floor.polygon(hall.floor.polygon_of(at).expect("a point of the way")).corners;
    corners.iter().fold(Vec2::ZERO, |sum, &v| sum + hall.floor.vertex(v)) * (1.0 / corners.len() as f32)
}

/// The one nearest to the point, of those that are on no wall.
fn inner_vertex(hall: &Hall, point: Vec2) -> Option<Vec2> {
    let floor = &hall.floor;
    let is_inner = |&v: &u32| !floor.turns_at(v) && floor.polygons.iter().any(|polygon| polygon.corners.contains(&v));
    let inner = (0..floor.vertices.len() as u32).filter(is_inner).map(|v| floor.vertex(v));
    inner.min_by(|a, b| a.distance(point).total_cmp(&b.distance(point)))
}

/// How far the point is from the nearest edge.
fn to_an_edge(hall: &Hall, point: Vec2) -> f32 {
    let floor = &hall.floor;
    let edges = floor.polygons.iter().flat_map(|polygon| polygon.edges());
    let distance = |(a, b): (u32, u32)| {
        let (a, along) = (floor.vertex(a), floor.vertex(b) - floor.vertex(a));
        let part = ((point - a).dot(along) / along.dot(along)).clamp(0.0, 1.0);
        point.distance(a + along * part)
    };
    edges.map(distance).fold(f32::INFINITY, f32::min)
}
