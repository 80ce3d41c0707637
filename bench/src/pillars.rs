//! How often a route is longer than the shortest on plain rooms round a pillar, turned and drawn away from the origin.

use glam::Vec2;
use harness::floor::Floor;

use crate::cart;
use crate::hall::Hall;
use crate::lent::Lent;

const TURNS: usize = 150;
/// How long a room is, and how far the pillar's corner is from the origin, along x and along y.
const LENGTHS: [f64; 4] = [20.0, 40.0, 80.0, 160.0];
const DISTANCES: [f64; 4] = [0.0, 100.0, 1000.0, 8000.0];
/// A route counts as too long from a tenth on.
const MUCH: f64 = 1.1;

type Point = (f64, f64);

/// Two rooms with a pillar between them, 1 wide, and a hall along both: the corners, and the polygons of the hall in one piece or cut where the
/// pillar ends, so that no three corners of a polygon are in one line.
fn drawn(long: f64, cut: bool) -> (Vec<Point>, Vec<Vec<u32>>) {
    let (left, right) = (-long, long + 1.0);
    let low = [(left, -long), (0.0, -long), (1.0, -long), (right, -long)];
    let middle = [(left, 0.0), (0.0, 0.0), (1.0, 0.0), (right, 0.0)];
    let high = [(left, long), (0.0, long), (1.0, long), (right, long)];
    let rooms = vec![vec![0, 1, 5, 4], vec![2, 3, 7, 6]];
    let hall = if cut { vec![vec![4, 5, 9, 8], vec![5, 6, 10, 9], vec![6, 7, 11, 10]] } else { vec![vec![4, 5, 6, 7, 11, 8]] };
    ([low, middle, high].concat(), [rooms, hall].concat())
}

/// From the one room to the other and back, near the pillar and farther off.
fn questions(long: f64) -> [(Point, Point); 4] {
    let (near, far) = (((-1.0, -1.0), (2.0, -1.0)), ((-long / 4.0, -long / 8.0), (long / 2.0, -long / 8.0)));
    [near, (near.1, near.0), far, (far.1, far.0)]
}

/// By the pillar's two corners.
fn shortest((from, to): (Point, Point)) -> f64 {
    let (left, right) = if from.0 < to.0 { (from, to) } else { (to, from) };
    left.0.hypot(left.1) + 1.0 + (right.0 - 1.0).hypot(right.1)
}

/// A part of a full turn, and then so far away: no library's sine, so the same everywhere.
fn placed((x, y): Point, turn: usize, distance: f64) -> Vec2 {
    let t = turn as f64 / TURNS as f64 * 2.0 - 1.0;
    let (cosine, sine) = ((1.0 - t * t) / (1.0 + t * t), 2.0 * t / (1.0 + t * t));
    Vec2::new((cosine * x - sine * y + distance) as f32, (sine * x + cosine * y - distance) as f32)
}

pub fn print(lent: &mut Lent) {
    println!("Routes longer than the shortest by more than a tenth, of {} on rooms turned {TURNS} ways, and how many times as long at most", 4 * TURNS);
    for cut in [false, true] {
        let title = if cut { "hall cut" } else { "hall whole" };
        println!("{title:<16}{}", DISTANCES.map(|distance| format!("{:>28}", format!("{distance} from the origin"))).concat());
        for long in LENGTHS {
            let cells = DISTANCES.map(|distance| cell(long, cut, distance, lent));
            println!("{:<16}{}", format!("rooms of {long}"), cells.concat());
        }
    }
}

fn cell(long: f64, cut: bool, distance: f64, lent: &mut Lent) -> String {
    let (mut ours, mut rusts, mut most) = (0, 0, 1.0);
    for turn in 0..TURNS {
        let (corners, polygons) = drawn(long, cut);
        let vertices = corners.into_iter().map(|corner| placed(corner, turn, distance)).collect();
        let hall = Hall::new(Floor::linked(vertices, &polygons));
        for question in questions(long) {
            let least = shortest(question);
            let (start, goal) = (placed(question.0, turn, distance), placed(question.1, turn, distance));
            let told = hall.told(lent, start, goal);
            assert_eq!(told.number, 0);
            let times = end_length(&told.route) as f64 / least;
            most = f64::max(most, times);
            ours += (times > MUCH) as usize;
            let path = hall.rusts(hall.ends(start, goal).expect("two rooms")).expect("a path");
            rusts += (path.length as f64 / least > MUCH) as usize;
        }
    }
    format!("{:>28}", format!("{ours} (Rust {rusts}), {most:.2}"))
}

/// The length that the end record has.
fn end_length(route: &[u8]) -> f32 {
    let end = &route[route.len() - cart::RECORD_BYTES..];
    f32::from_le_bytes(end[16..20].try_into().expect("four bytes"))
}
