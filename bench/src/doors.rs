//! Three rooms, one above the other, as in examples/floors/stall: two openings between the upper two, a door between the lower two. How
//! often a question from the upper room to the lower one ends in 11, by how the wall with the two openings is drawn.

use glam::Vec2;
use harness::floor::Floor;
use harness::random::Random;

use crate::hall::Hall;
use crate::lent::Lent;

const QUESTIONS: usize = 1000;
const SEED: u64 = 0xD005;

#[rustfmt::skip]
const CORNERS: [(f32, f32); 11] = [
    (0.0, 0.0), (10.0, 0.0), (0.0, 4.0), (1.0, 4.0), (10.0, 4.0), (0.0, 8.0), (4.0, 8.0), (6.0, 8.0), (10.0, 8.0), (0.0, 12.0), (10.0, 12.0),
];
const MIDDLE: &[u32] = &[2, 3, 4, 8, 7, 6, 5];
const LOWER: &[u32] = &[0, 1, 4, 3, 2];

fn floor(more: &[(f32, f32)], polygons: &[&[u32]], walls: &[(u32, u32)]) -> Hall {
    let corners = CORNERS.iter().chain(more).map(|&(x, y)| Vec2::new(x, y)).collect();
    let polygons: Vec<Vec<u32>> = polygons.iter().map(|corners| corners.to_vec()).collect();
    let mut floor = Floor::linked(corners, &polygons);
    walls.iter().for_each(|&(a, b)| floor.wall_up(a, b));
    Hall::new(floor)
}

pub fn print(lent: &mut Lent) {
    let thin = floor(&[], &[&[5, 6, 7, 8, 10, 9], MIDDLE, LOWER], &[(6, 7), (3, 4)]);
    let upper = [(0.0, 8.2), (4.0, 8.2), (6.0, 8.2), (10.0, 8.2)];
    let thick = floor(&upper, &[&[11, 12, 13, 14, 10, 9], MIDDLE, LOWER, &[5, 6, 12, 11], &[7, 8, 14, 13]], &[(3, 4)]);
    println!("11 on {QUESTIONS} questions from the upper to the lower of three rooms, two openings in the wall below the upper one");
    for (name, hall) in [("a wall without thickness", thin), ("a wall 0.2 thick", thick)] {
        let mut random = Random::new(SEED);
        let mut at = |low: f32, high: f32| Vec2::new(0.25 + 9.5 * random.fraction(), low + (high - low) * random.fraction());
        let asked = (0..QUESTIONS).map(|_| (at(8.45, 11.75), at(0.25, 3.75)));
        let stalls = asked.filter(|&(start, goal)| !hall.finds(lent, start, goal)).count();
        println!("{name:<26}{stalls:>6}");
    }
}
