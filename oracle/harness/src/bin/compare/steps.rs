//! The steps out of random nodes of random floors: ours, asked for one after the other, beside document 01's over the
//! original's walk and clip (steps01). Every word of every step has to agree, and their order.

use harness::chunks::counted;
use harness::floor::Floor;
use harness::floors::{Asked, Class, Floors, CLASSES};
use harness::steps01::{steps_from, Node};

use crate::{Sum, SHOWN};

/// What ONLY calls it.
pub const NAME: &str = "steps";

/// Chunks of each class, and the nodes of one.
const CHUNKS: usize = 100;
const CHUNK: usize = 2048;
/// Nodes of one floor, at most.
const NODES: usize = 32;
const SEED: u64 = 0x57E9_0001;

#[link(name = "steps_c", kind = "static")]
extern "C" {
    fn steps_step(
        vertices: *const u8,
        vertices_length: usize,
        polygons: *const u8,
        polygons_length: usize,
        goal: u32,
        node: &[u32; 10],
        k: usize,
        out: &mut [u32; 8],
    ) -> u32;
}

/// What it answers.
const NO_MORE: u32 = 0;
const GIVEN: u32 = 1;
const NOWHERE: u32 = 100;

/// What stands in the lent words before the call: no step's word.
const UNTOUCHED: u32 = 0xFFFF_FFFE;

/// The steps' words in order, then the number that ends them.
type Answer = (Vec<[u32; 8]>, u32);

struct Difference {
    text: String,
    original: Answer,
    ours: Answer,
}

#[derive(Default)]
struct Counts {
    nodes: usize,
    steps: usize,
    refused: usize,
    differ: usize,
    /// Of the nodes, by their polygon's corners, and of the steps, by kind.
    corners: [usize; 9],
    kinds: [usize; 5],
    /// The first few.
    differences: Vec<Difference>,
}

impl Counts {
    fn add(&mut self, other: Counts) {
        self.nodes += other.nodes;
        self.steps += other.steps;
        self.refused += other.refused;
        self.differ += other.differ;
        self.corners.iter_mut().zip(other.corners).for_each(|(sum, count)| *sum += count);
        self.kinds.iter_mut().zip(other.kinds).for_each(|(sum, count)| *sum += count);
        self.differences.extend(other.differences);
    }
}

/// Prints the line of the function, then one a class.
pub fn compare(threads: usize) -> Sum {
    let counted = CLASSES.map(|class| (class, count(class, threads)));
    let mut all = Counts::default();
    let mut lines = Vec::new();
    for (class, counts) in counted {
        lines.push(format!(
            "  {}: {} nodes, {} steps, {} refused, {} differ",
            described(class), counts.nodes, counts.steps, counts.refused, counts.differ
        ));
        all.add(counts);
    }
    println!("{:<24}{:>12}{:>12}{:>12}", NAME, 0, all.nodes, all.differ);
    lines.iter().for_each(|line| println!("{line}"));
    println!("  nodes by the corners of their polygon: {}", listed(&all.corners, 3));
    println!("  steps by their kind: {}", listed(&all.kinds, 2));
    for difference in all.differences.iter().take(SHOWN) {
        println!("  {}", difference.text);
        println!("    01:   {}", shown(&difference.original));
        println!("    ours: {}", shown(&difference.ours));
    }
    Sum { compared: all.nodes, differ: all.differ }
}

fn described(class: Class) -> &'static str {
    match class {
        Class::Seed => "seeds",
        Class::Reached => "reached by steps from a seed",
        Class::Any => "over any edge, with any interval and root",
        Class::Walled => "on floors full of walls",
        Class::Straight => "on floors with corners in a line",
        Class::Large => "on floors with coordinates up to the limit",
        Class::Changed => "floors or nodes changed in one place",
    }
}

fn listed(counts: &[usize], from: usize) -> String {
    let count = |(number, count): (usize, &usize)| format!("{number}: {count}");
    counts.iter().enumerate().skip(from).map(count).collect::<Vec<_>>().join(", ")
}

fn count(class: Class, threads: usize) -> Counts {
    let mut all = Counts::default();
    counted(threads, CHUNKS, |chunk, counts| compare_chunk(class, chunk, counts)).into_iter().for_each(|counts| all.add(counts));
    all
}

fn compare_chunk(class: Class, chunk: usize, counts: &mut Counts) {
    let mut floors = Floors::new(SEED ^ (class as u64) << 48 ^ (chunk as u64) << 32);
    let end = counts.nodes + CHUNK;
    while counts.nodes < end {
        let floor = floors.floor_of(class);
        for _ in 0..NODES.min(end - counts.nodes) {
            let Some(Asked { goal_polygon, mut node, .. }) = floors.asked_of(class, &floor) else { break };
            if class == Class::Changed {
                let mut changed = floor.clone();
                floors.change(&mut changed, &mut node);
                compare_node(&changed, goal_polygon, &node, counts);
            } else {
                compare_node(&floor, goal_polygon, &node, counts);
            }
        }
    }
}

fn compare_node(floor: &Floor, goal: u32, node: &Node, counts: &mut Counts) {
    let (original, ours) = (original(floor, goal, node), ours(floor, goal, node));
    counts.nodes += 1;
    counts.steps += original.0.len();
    counts.refused += (original.1 != NO_MORE) as usize;
    if original.1 == NO_MORE {
        counts.corners[floor.polygon(node.polygon).corners.len()] += 1;
        original.0.iter().for_each(|words| counts.kinds[words[0] as usize] += 1);
    }
    if original != ours {
        counts.differ += 1;
        if counts.differences.len() < SHOWN {
            let text = format!("goal in {goal}, {node:?} on {floor:?}");
            counts.differences.push(Difference { text, original, ours });
        }
    }
}

fn original(floor: &Floor, goal: u32, node: &Node) -> Answer {
    if floor.refused() != 0 {
        (Vec::new(), floor.refused())
    } else if !node.stands_on(floor) {
        (Vec::new(), NOWHERE)
    } else {
        (steps_from(floor, goal, node).iter().map(|step| step.words()).collect(), NO_MORE)
    }
}

/// Asked for step 0, 1 and so on, until none comes; and then for the last number there is, which has to give the same.
/// A word written where none may be shows as a number that is no answer.
fn ours(floor: &Floor, goal: u32, node: &Node) -> Answer {
    const WRITTEN: u32 = u32::MAX;
    let (vertices, polygons) = floor.bytes();
    let asked = node.words();
    let step = |k: usize| {
        let mut out = [UNTOUCHED; 8];
        let number = unsafe {
            steps_step(vertices.as_ptr(), vertices.len(), polygons.as_ptr(), polygons.len(), goal, &asked, k, &mut out)
        };
        (number, out)
    };
    let mut steps = Vec::new();
    loop {
        match step(steps.len()) {
            (GIVEN, words) => steps.push(words),
            (number, words) => {
                let stays = words == [UNTOUCHED; 8] && step(usize::MAX) == (number, words);
                return (steps, if stays { number } else { WRITTEN });
            }
        }
    }
}

fn shown((steps, number): &Answer) -> String {
    let words = |words: &[u32; 8]| words.map(|word| format!("{word:08X}")).join(" ");
    let steps: Vec<String> = steps.iter().map(words).collect();
    format!("{}; then {number}", steps.join(", "))
}
