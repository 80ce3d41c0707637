//! Whether the list of the steps' differences is whole: on random nodes the Rust's answers come out when document 01's steps
//! take each listed point the Rust's way, and other answers when one of them is left as it was. Needs the Rust side only.

use std::process::ExitCode;

use glam::Vec2;
use harness::floors::{Asked, Floors};
use harness::listed::{following, queued, Switches};
use harness::steps01::{enter, steps_from, Node, Segment};

const FLOORS: usize = 40_000;
/// Nodes of one floor.
const NODES: usize = 50;
const SEED: u64 = 0x5EED_0001;

/// A node of the original's: the polygon left, the polygon entered and the edge's vertices; the interval; the root.
type Seen = ([u32; 4], Segment, Vec2);

fn main() -> ExitCode {
    let mut floors = Floors::new(SEED);
    let (mut nodes, mut skipped, mut on, mut off) = (0, 0, 0, 0);
    let mut left_out = Switches::all_but_one().map(|(name, switches)| (name, switches, 0));
    for _ in 0..FLOORS {
        let floor = floors.floor();
        assert_eq!(floor.refused(), 0, "{floor:?}");
        let mesh = floor.mesh();
        for _ in 0..NODES {
            let asked = floors.asked(&floor);
            let Asked { goal, goal_polygon, node, left } = asked;
            let steps = steps_from(&floor, goal_polygon, &node);
            let ours: Vec<Node> = steps.iter().map(|step| enter(&floor, &node, step)).collect();
            off += (bits(&following(Switches::OFF, &floor, &asked)) != bits(&ours)) as usize;
            // Neither side makes a node whose interval is a point, or steps out of the goal polygon.
            if node.polygon == goal_polygon || (!node.seed && node.interval.0 == node.interval.1) {
                skipped += 1;
                continue;
            }
            nodes += 1;
            let to = (goal, goal_polygon);
            let made =
                if node.seed { mesh.begun((node.root, node.polygon), to) } else { mesh.expanded(as_node(left, &node), to) };
            let made: Vec<[u32; 9]> = made.iter().map(words).collect();
            on += (bits(&queued(Switches::ON, &floor, &asked)) != made) as usize;
            for (_, switches, count) in &mut left_out {
                *count += (bits(&queued(*switches, &floor, &asked)) != made) as usize;
            }
        }
    }
    println!("{nodes} random nodes on {FLOORS} random floors, and {skipped} that neither side expands");
    println!("{off:>9} differ from document 01's steps when every listed point is taken document 01's way");
    println!("{on:>9} differ from the Rust's when every listed point is taken the Rust's way");
    for (name, _, count) in left_out {
        println!("{count:>9} differ from the Rust's when this one alone is not: {name}");
    }
    ExitCode::from((on + off != 0) as u8)
}

fn as_node(left: u32, at: &Node) -> Seen {
    ([left, at.polygon, at.first, at.second], at.interval, at.root)
}

fn bits(nodes: &[Node]) -> Vec<[u32; 9]> {
    nodes.iter().map(|node| words(&as_node(0, node))).collect()
}

/// All that a node has but the polygon that was left.
fn words(([_, polygon, first, second], (right, left), root): &Seen) -> [u32; 9] {
    let [a, b, c, d, e, f] = [right.x, right.y, left.x, left.y, root.x, root.y].map(f32::to_bits);
    [*polygon, *first, *second, a, b, c, d, e, f]
}
