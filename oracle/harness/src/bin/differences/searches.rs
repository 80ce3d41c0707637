//! Differences of the search: a small floor, a question, and how it ends.

use glam::Vec2;
use harness::floor::Floor;
use harness::search01::{search, Answer, Lends};

use crate::text::{self, asked, at, counted, floor, walled};
use crate::{Shown, RULE};

pub fn shown() -> Vec<Shown> {
    vec![example(), far(), chain(), to_and_fro(), wall(), larger_distance(), heap(), stall(), stall_in_pieces(), limit()]
}

/// More pops than a search here needs that ends.
const MANY: usize = 10_000;
/// What the route program lends.
const PROGRAMS: Lends = Lends { places: 2047, entries: 2047, ..Lends::MOST };

fn place(floor: &Floor, point: Vec2) -> (Vec2, u32) {
    (point, floor.polygon_of(point).expect("a point on the floor"))
}

/// Both searches, and behind each answer the edge over which it came to the goal if that is asked for.
fn question(name: &'static str, floor: &Floor, start: Vec2, goal: Vec2, with_edge: bool) -> Shown {
    assert_eq!(floor.refused(), 0, "{name}");
    let (from, to) = (place(floor, start), place(floor, goal));
    // As many pops as the original's own path() does.
    let (popped, path) = floor.mesh().searched(from, to, None, 10 * floor.polygons.len());
    assert_eq!(path, floor.mesh().path_between(from, to), "{name}");
    let mut rust = text::path(popped.len(), path);
    let answer = search(floor, start, goal, Lends::MOST);
    let mut ours = of_answer(&answer);
    if with_edge {
        let ([_, _, first, second], _, _) = popped[popped.len() - 1];
        rust += &format!(", over {first}-{second}");
        let route = answer.route.expect("a route");
        let last = route.steps[route.steps.len() - 1];
        ours += &format!(", over {}-{}", last.first, last.second);
    }
    Shown { name, input: asked(floor, start, goal), rust, who: RULE, ours, agreed: false }
}

fn of_answer(answer: &Answer) -> String {
    match &answer.route {
        Some(route) => text::found(answer.pops, &route.points, route.length),
        None => format!("{} after {}", answer.number, counted(answer.pops)),
    }
}

/// Document 01's whole example, whose step is printed there: no difference, and a test of what answers for us.
fn example() -> Shown {
    let floor = floor(&[(0.0, 0.0), (2.0, 0.0), (4.0, 0.0), (4.0, 2.0), (2.0, 2.0), (0.0, 2.0)], &[&[0, 1, 4, 5], &[1, 2, 3, 4]]);
    let (start, goal) = (at(1.0, 1.0), at(3.0, 1.0));
    let steps = search(&floor, start, goal, Lends::MOST).route.expect("a route").steps;
    let words: Vec<[u32; 8]> = steps.iter().map(|step| step.words()).collect();
    assert_eq!(words, [[2, 1, 1, 4, 0x4000_0000, 0, 0x4000_0000, 0x4000_0000]]);
    Shown { agreed: true, ..question("Document 01's example", &floor, start, goal, false) }
}

/// As in examples/floors/far_from_origin, where the shortest way is 3.83 long: no difference, both routes go to the hall's far end and back.
fn far() -> Shown {
    let floor = floor(
        &[
            (108.0, 44.0), (132.0, 76.0), (100.0, 100.0), (76.0, 68.0), (100.6, 100.8), (130.0, 140.0), (114.0, 152.0), (60.0, 80.0), (132.6, 76.8),
            (162.0, 116.0),
        ],
        &[&[0, 1, 2, 3], &[3, 2, 4, 5, 6, 7], &[8, 9, 5, 4]],
    );
    Shown { agreed: true, ..question("Far from the origin", &floor, at(100.2, 98.6), at(102.0, 101.0), false) }
}

/// Two rooms over a hall, and a third behind the second, whose border with the hall is two edges in one line with the corner where the way turns.
fn to_and_fro() -> Shown {
    let floor = floor(
        &[
            (0.0, -4.0), (16.0, -4.0), (16.0, 0.0), (10.0, 0.0), (8.0, 0.0), (4.0, 0.0), (0.0, 0.0), (4.0, 4.0), (0.0, 4.0), (16.0, 4.0), (10.0, 4.0),
            (8.0, 4.0), (16.0, 5.0), (16.0, 8.0), (8.0, 8.0),
        ],
        &[&[6, 5, 7, 8], &[0, 1, 2, 3, 4, 5, 6], &[4, 3, 2, 9, 10, 11], &[11, 10, 12, 13, 14]],
    );
    question("No pruning: going back, the answer", &floor, at(2.0, 2.0), at(15.0, 6.0), false)
}

/// Four triangles in a row: the second has one way on, and so has the third.
fn chain() -> Shown {
    let floor = floor(
        &[(0.0, 0.0), (1.0, 0.0), (0.0, 1.0), (1.0, 1.0), (0.0, 2.0), (1.0, 2.0)],
        &[&[0, 1, 2], &[2, 1, 3], &[2, 3, 4], &[4, 3, 5]],
    );
    question("No pruning: chains in place", &floor, at(0.0, 0.0), at(1.0, 2.0), false)
}

/// As the steps show it, with the answer that a caller gets.
fn wall() -> Shown {
    question("The neighbour across an edge: the answer", &walled(), at(0.0, 0.0), at(2.0, 2.0), false)
}

/// Round the hole 2,3,4 either way is as long. The node that has turned has the larger distance, and the higher place.
fn larger_distance() -> Shown {
    let floor = floor(
        &[(-2.0, -1.0), (2.0, -1.0), (1.0, 0.0), (-1.0, 0.0), (0.0, 1.0), (2.0, 2.0), (-2.0, 2.0)],
        &[&[0, 1, 2, 3], &[2, 1, 5, 4], &[0, 3, 4, 6], &[4, 5, 6]],
    );
    question("Equal f: the larger distance", &floor, at(0.0, -1.0), at(0.0, 2.0), false)
}

/// Vertex 2 is on the straight way, so the second and the third edge are as good; the first is not.
fn heap() -> Shown {
    let floor = floor(
        &[(0.0, 0.0), (1.0, 0.0), (2.0, 0.0), (3.0, 0.0), (2.0, 1.0), (2.0, -1.0)],
        &[&[0, 1, 2, 3, 4], &[3, 2, 1, 0, 5]],
    );
    question("Equal f and equal distance: the heap", &floor, at(2.0, 1.0), at(2.0, -1.0), true)
}

/// Three quadrilaterals round the start, and the goal where the straight way does not lead.
fn stall() -> Shown {
    let floor = floor(
        &[(0.0, 0.0), (1.0, 0.0), (1.0, 1.0), (0.0, 1.0), (-1.0, 1.0), (-1.0, -1.0), (1.0, -1.0), (2.0, -1.0)],
        &[&[0, 1, 2, 3], &[0, 3, 4, 5], &[0, 5, 6, 1], &[1, 7, 2]],
    );
    let (start, goal) = (at(0.0, 0.0), at(2.0, -1.0));
    let shown = question("The limit of stalls", &floor, start, goal, false);
    let (popped, path) = floor.mesh().searched(place(&floor, start), place(&floor, goal), Some(u32::MAX), MANY);
    Shown { rust: format!("{} (without recording: {})", shown.rust, text::path(popped.len(), path)), ..shown }
}

/// The same, with each border of two of the three in three pieces: by the time that ours begins to record, the program's places are used up.
fn stall_in_pieces() -> Shown {
    let floor = floor(
        &[
            (0.0, 0.0), (1.0, 0.0), (2.0, 0.0), (3.0, 0.0), (0.0, 1.0), (0.0, 2.0), (0.0, 3.0), (-1.0, -1.0), (-2.0, -2.0), (-3.0, -3.0), (3.0, 3.0),
            (-3.0, 3.0), (3.0, -3.0), (6.0, -3.0),
        ],
        &[&[0, 1, 2, 3, 10, 6, 5, 4], &[0, 4, 5, 6, 11, 9, 8, 7], &[0, 7, 8, 9, 12, 3, 2, 1], &[3, 13, 10]],
    );
    let (start, goal) = (at(0.0, 0.0), at(6.0, -3.0));
    let shown = question("The limit of stalls: the answer", &floor, start, goal, false);
    let with_less = of_answer(&search(&floor, start, goal, PROGRAMS));
    Shown { ours: format!("{} (with 2,047 places: {with_less})", shown.ours), ..shown }
}

/// Polygons that lie over each other, as no test forbids.
fn limit() -> Shown {
    let floor = floor(
        &[(3.0, 1.0), (3.0, -3.0), (-2.0, -3.0), (1.0, -2.0), (-2.0, -4.0), (1.0, 4.0), (2.0, -2.0)],
        &[&[4, 0, 1, 2, 3], &[4, 3, 6], &[1, 0, 5, 3, 2], &[0, 4, 6]],
    );
    let (start, goal) = (at(-1.578125, -3.78125), at(1.03125, -2.125));
    let shown = question("The limit of pops", &floor, start, goal, false);
    let (popped, path) = floor.mesh().searched(place(&floor, start), place(&floor, goal), None, MANY);
    Shown { rust: format!("{} (without its limit: {})", shown.rust, text::path(popped.len(), path)), ..shown }
}
