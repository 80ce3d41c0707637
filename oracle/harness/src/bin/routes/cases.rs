//! The floors and the questions.

use glam::Vec2;
use harness::floor::Floor;
use harness::search01::Lends;

use crate::drawn::drawn;
use crate::Case;

/// Room for the longest route.
const ROOM: usize = 32 * 4097;
/// The side of a cell where nothing else is said.
const CELL: Vec2 = Vec2::new(2.0, 2.0);

pub fn all() -> Vec<Case> {
    [along(), around(), between_rooms(), wide(), lent(), refused(), stalled()].into_iter().flatten().collect()
}

/// A case with all that can be lent.
fn case(name: &'static str, floor: Floor, start: (f32, f32), goal: (f32, f32)) -> Case {
    let [start, goal] = [start, goal].map(|(x, y)| Vec2::new(x, y));
    Case { name, floor, start, goal, lends: Lends::MOST, room: ROOM }
}

/// Document 01's whole example.
fn example() -> Floor {
    drawn(&[".."], CELL)
}

fn corridor() -> Floor {
    drawn(&[".#####", ".#...#", ".#.#..", ".#.##.", "...##."], CELL)
}

fn zigzag() -> Floor {
    drawn(&[".......", "######.", ".......", ".######", "......."], CELL)
}

fn along() -> Vec<Case> {
    vec![
        case("the example of document 01", example(), (1.0, 1.0), (3.0, 1.0)),
        case("a corridor", corridor(), (1.0, 9.5), (11.25, 0.5)),
        case("the corridor, backwards", corridor(), (11.25, 0.5), (1.0, 9.5)),
        case("a zigzag", zigzag(), (0.5, 0.5), (0.5, 9.5)),
        case("a hall thousands of metres long", drawn(&["................"], Vec2::new(1024.0, 6.0)), (3.5, 0.25), (16380.0, 5.75)),
    ]
}

/// Eight polygons round a block: the inner corners are half as far out.
fn ring() -> Floor {
    let outer = [(8.0, 0.0), (6.0, 6.0), (0.0, 8.0), (-6.0, 6.0), (-8.0, 0.0), (-6.0, -6.0), (0.0, -8.0), (6.0, -6.0)];
    let at = |scale: f32| outer.map(|(x, y)| Vec2::new(x * scale, y * scale));
    let vertices = [at(1.0), at(0.5)].concat();
    let polygons: Vec<Vec<u32>> = (0..8).map(|i| (i, (i + 1) % 8)).map(|(i, j)| vec![8 + i, i, j, 8 + j]).collect();
    Floor::linked(vertices, &polygons)
}

fn triangles() -> Floor {
    drawn(&["/\\/\\/", "\\/\\/\\", "/\\#\\/", "\\/\\/\\", "/\\/\\/"], CELL)
}

fn mixed() -> Floor {
    drawn(&["aaa/.bb", "/##cc#.", ".ddd#.\\", "ee/fff."], CELL)
}

fn obstacle() -> Floor {
    drawn(&["........", "........", "..####..", "..####..", "..####..", "........"], CELL)
}

fn around() -> Vec<Case> {
    vec![
        case("a ring", ring(), (6.0, 0.5), (-6.0, 0.25)),
        case("a triangulated grid", triangles(), (0.5, 0.75), (9.5, 8.75)),
        case("mixed polygons", mixed(), (0.5, 0.5), (13.5, 7.5)),
        case("an obstacle", obstacle(), (1.0, 4.5), (15.0, 5.0)),
    ]
}

fn rooms() -> Floor {
    drawn(&["...#...", "...#...", ".......", "...#..."], CELL)
}

/// The door of the two rooms is a wall on both sides.
fn parted() -> Floor {
    let mut floor = rooms();
    floor.wall_up(11, 19);
    floor
}

fn between_rooms() -> Vec<Case> {
    vec![
        case("two rooms and a door", rooms(), (0.5, 7.5), (13.5, 7.0)),
        case("two rooms, a wall between", parted(), (0.5, 7.5), (13.5, 7.0)),
        case("start and goal in one polygon", rooms(), (0.25, 0.5), (1.75, 1.25)),
        case("the start is the goal", rooms(), (0.25, 0.5), (0.25, 0.5)),
        case("the start on a wall's end", rooms(), (6.0, 2.0), (13.5, 7.0)),
    ]
}

/// 440 polygons, with pillars.
fn hall() -> Floor {
    let (plain, pillared) = (".".repeat(22), "..#.".repeat(5) + "..");
    let rows: Vec<&str> = (0..22).map(|y| if y % 3 == 1 { pillared.as_str() } else { plain.as_str() }).collect();
    drawn(&rows, CELL)
}

fn wide() -> Vec<Case> {
    vec![case("a large hall with pillars", hall(), (0.25, 0.5), (43.5, 30.75))]
}

/// The zigzag again, with less than it takes.
fn lent() -> Vec<Case> {
    let asked = |name| case(name, zigzag(), (0.5, 0.5), (0.5, 9.5));
    let crate::Expected { steps, route, .. } = crate::expected(&asked("with all there is"));
    vec![
        Case { lends: Lends { places: 8, ..Lends::MOST }, ..asked("too few places") },
        Case { lends: Lends { places: 1, ..Lends::MOST }, ..asked("a place for the seed alone") },
        Case { lends: Lends { places: 0, ..Lends::MOST }, ..asked("no place") },
        Case { lends: Lends { budget: steps, ..Lends::MOST }, ..asked("a budget that is just enough") },
        Case { lends: Lends { budget: steps - 1, ..Lends::MOST }, ..asked("a budget a step short") },
        Case { lends: Lends { budget: 0, ..Lends::MOST }, ..asked("no budget") },
        Case { room: route.len(), ..asked("room that is just enough") },
        Case { room: route.len() - 1, ..asked("room a byte short") },
        Case { room: 0, ..asked("no room") },
    ]
}

fn refused() -> Vec<Case> {
    vec![
        case("a start in a pillar", hall(), (5.0, 5.0), (43.5, 30.75)),
        case("a goal off the floor", hall(), (0.25, 0.5), (-0.25, 0.5)),
    ]
}

/// As in docs/DIFFERENCES.md: three quadrilaterals round the start, which the search goes round and round.
fn round_the_start() -> Floor {
    let points = [(0.0, 0.0), (1.0, 0.0), (1.0, 1.0), (0.0, 1.0), (-1.0, 1.0), (-1.0, -1.0), (1.0, -1.0), (2.0, -1.0)];
    let vertices = points.iter().map(|&(x, y)| Vec2::new(x, y)).collect();
    Floor::linked(vertices, &[vec![0, 1, 2, 3], vec![0, 3, 4, 5], vec![0, 5, 6, 1], vec![1, 7, 2]])
}

/// As in examples/floors/stall: the wall between the upper two rooms has no thickness, and two openings.
fn three_rooms() -> Floor {
    let rows: [(f32, &[f32]); 4] = [(0.0, &[0.0, 10.0]), (4.0, &[0.0, 1.0, 10.0]), (8.0, &[0.0, 4.0, 6.0, 10.0]), (12.0, &[0.0, 10.0])];
    let vertices = rows.iter().flat_map(|&(y, row)| row.iter().map(move |&x| Vec2::new(x, y))).collect();
    let mut floor = Floor::linked(vertices, &[vec![5, 6, 7, 8, 10, 9], vec![2, 3, 4, 8, 7, 6, 5], vec![0, 1, 4, 3, 2]]);
    floor.wall_up(6, 7);
    floor.wall_up(3, 4);
    floor
}

/// Searches that stall, with all that can be lent and with less.
fn stalled() -> Vec<Case> {
    let asked = |name| case(name, round_the_start(), (0.0, 0.0), (2.0, -1.0));
    let whole = asked("a ring round the start");
    let answer = crate::answered(&whole);
    let entries = answer.table.expect("a search that stalls").used();
    let begun = 514;
    vec![
        whole,
        Case { lends: Lends { entries, ..Lends::MOST }, ..asked("a table that is just enough") },
        Case { lends: Lends { entries: entries - 1, ..Lends::MOST }, ..asked("a table an entry short") },
        Case { lends: Lends { entries: 0, ..Lends::MOST }, ..asked("no table") },
        Case { lends: Lends { entries: 0, budget: begun - 1, ..Lends::MOST }, ..asked("a budget that is spent before") },
        Case { lends: Lends { budget: answer.pops, ..Lends::MOST }, ..asked("a stalled search's own budget") },
        case("two openings in a thin wall", three_rooms(), (3.0, 9.0), (9.0, 3.0)),
    ]
}
