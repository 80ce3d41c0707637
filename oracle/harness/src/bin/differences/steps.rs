//! Differences of the permitted steps: a small floor, a node in it, and what can follow.

use glam::Vec2;
use harness::floor::Floor;
use harness::steps01::{enter, seed, steps_from, Node};
use polyanya::Mesh;

use crate::text::{as_node, asked, at, floor, interval, node, nodes, point, steps, walled};
use crate::{Shown, RULE};

pub fn shown() -> Vec<Shown> {
    vec![triangle_at_the_root(), new_root(), kind_4(), going_back(), dead_end(), small_interval(), no_interval(), clipped_away(), wall()]
}

/// After so many steps from the start, each by its number among those that document 01 has.
fn reached(floor: &Floor, goal: Vec2, start: Vec2, choices: &[usize]) -> (u32, Node) {
    let goal = floor.polygon_of(goal).expect("a goal on the floor");
    let mut left = floor.polygon_of(start).expect("a start on the floor");
    let mut at = seed(start, left);
    for &choice in choices {
        let step = steps_from(floor, goal, &at)[choice];
        left = at.polygon;
        at = enter(floor, &at, &step);
    }
    (left, at)
}

/// What follows the node that these choices lead to.
fn after(name: &'static str, floor: &Floor, start: Vec2, goal: Vec2, choices: &[usize]) -> Shown {
    assert_eq!(floor.refused(), 0, "{name}");
    let goal_polygon = floor.polygon_of(goal).expect("a goal on the floor");
    assert_ne!(floor.polygon_of(start), Some(goal_polygon), "{name}");
    let (left, from) = reached(floor, goal, start, choices);
    let (mesh, to) = (floor.mesh(), (goal, goal_polygon));
    let question = asked(floor, start, goal);
    let (input, rust) = if from.seed {
        (format!("{question}; from the seed"), mesh.begun((start, from.polygon), to))
    } else {
        let from = as_node(left, &from);
        (format!("{question}; from the node {}", node(from)), mesh.expanded(from, to))
    };
    Shown { name, input, rust: nodes(rust), who: RULE, ours: steps(floor, goal_polygon, &from), agreed: false }
}

/// The two texts part, and yet no answer does.
fn agreed(shown: Shown) -> Shown {
    Shown { agreed: true, ..shown }
}

/// The start is the vertex in the middle, which is the right end of the second triangle's interval.
fn triangle_at_the_root() -> Shown {
    let floor = floor(&[(0.0, 0.0), (-1.0, -1.0), (1.0, -1.0), (0.0, 1.0)], &[&[0, 1, 2], &[0, 2, 3], &[0, 3, 1]]);
    after("Triangles: the steps", &floor, at(0.0, 0.0), at(0.5, 0.0), &[0])
}

/// The left ray passes vertex 4 by 3/2048, which lands.
fn new_root() -> Shown {
    let floor = floor(
        &[(0.0, -1.0), (1.0, 0.0), (0.0, 0.0), (1.0, 1.0), (-3.0 / 2048.0, 1.0), (0.0, 2.0), (-1.0, 2.0)],
        &[&[0, 1, 2], &[2, 1, 3, 4], &[4, 3, 5], &[4, 5, 6]],
    );
    after("The new root", &floor, at(0.0, -1.0), at(-1.0, 2.0), &[0, 0])
}

/// Vertex 4 counts as on the left ray, and still lies right of it.
fn kind_4() -> Shown {
    let off = 1.0 / 128.0;
    let floor = floor(
        &[(0.0, -1.0), (1.0, 0.0), (0.0, 0.0), (-1.0, 1.0), (off, 1.0), (0.0, 2.0)],
        &[&[0, 1, 2], &[2, 1, 4, 3], &[3, 4, 5]],
    );
    after("Kind 4", &floor, at(0.0, -off), at(0.0, 1.5), &[0])
}

/// Polygons 0 and 1 share two edges in one line, and the start is on it.
fn going_back() -> Shown {
    let floor = floor(
        &[(0.0, 0.0), (2.0, 0.0), (3.0, 0.0), (1.0, 1.0), (1.0, -1.0), (0.0, -1.0)],
        &[&[0, 1, 2, 3], &[2, 1, 0, 4], &[4, 0, 5]],
    );
    after("No pruning: going back", &floor, at(1.0, 0.0), at(0.0, -1.0), &[0])
}

/// Polygon 1 leads nowhere else.
fn dead_end() -> Shown {
    let floor = floor(&[(0.0, 0.0), (1.0, 0.0), (0.0, 1.0), (1.0, 1.0), (-1.0, 1.0)], &[&[0, 1, 2], &[1, 3, 2], &[0, 2, 4]]);
    after("No pruning: dead ends", &floor, at(0.25, 0.25), at(-0.75, 0.75), &[])
}

/// A door of 2^-20.
fn small_interval() -> Shown {
    let small = 1.0 / 1_048_576.0;
    let floor = floor(
        &[(0.0, 0.0), (small, 0.0), (1.0, 1.0), (-1.0, 1.0), (0.0, 2.0), (0.0, -1.0)],
        &[&[3, 2, 4], &[0, 1, 2, 3], &[1, 0, 5]],
    );
    after("Small intervals", &floor, at(0.0, 1.5), at(0.0, -1.0), &[0])
}

/// A door without length: the Rust has no test there, but its heuristic is NaN, and it makes nothing either.
fn no_interval() -> Shown {
    let floor = floor(
        &[(0.0, 0.0), (0.0, 0.0), (1.0, 0.0), (0.0, 1.0), (-1.0, 0.0), (0.0, -1.0)],
        &[&[0, 2, 3, 1], &[0, 1, 4, 5]],
    );
    agreed(after("No interval at the seed", &floor, at(1.0, 0.0), at(-1.0, 0.0), &[]))
}

/// The segment's left end is as far right of the right ray as the clip's slack: of the segment only that end is left.
fn clipped_away() -> Shown {
    let (root, cone, segment) = (at(0.0, 0.0), (at(0.0, 1.0), at(-1.0, 1.0)), (at(1.0, 2.0), at(0.01, 2.0)));
    let clipped = Mesh::clip_to_cone(root, cone, segment).expect("the end");
    let floor = floor(&[(0.0, 0.0), (1.0, 0.0), (0.0, 1.0)], &[&[0, 1, 2]]);
    let made = floor.mesh().added(([0, 0, 0, 1], cone, root), segment, (at(0.0, 3.0), 0));
    let kept = if clipped.0 == clipped.1 { Vec::new() } else { vec![([0, 0, 0, 1], clipped, root)] };
    Shown {
        name: "No interval after the clip",
        input: format!("add_node: root {}, interval {}, segment {}, of which the clip leaves {}", point(root), interval(cone), interval(segment), interval(clipped)),
        rust: nodes(made),
        who: RULE,
        ours: nodes(kept),
        agreed: true,
    }
}

fn wall() -> Shown {
    after("The neighbour across an edge", &walled(), at(0.0, 0.0), at(2.0, 2.0), &[])
}
