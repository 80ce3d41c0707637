//! Our functions, over the C interface of the static libraries.

use harness::answer::{Answer, Successor, Walk};
use harness::functions::{Input, CORNERS, ENTRY, FIRST_CORNER};

/// Words to write into, between two that must stay.
#[repr(C)]
struct Out<const N: usize> {
    before: u32,
    words: [u32; N],
    after: u32,
}

/// What stands in those words before the call. No NaN, since all of those count as one.
const UNTOUCHED: u32 = 0x5EA1_F10E;

#[link(name = "geometry_c", kind = "static")]
#[rustfmt::skip]
extern "C" {
    fn geometry_root(x: u32) -> u32;
    fn geometry_min(x: u32, y: u32) -> u32;
    fn geometry_max(x: u32, y: u32) -> u32;
    fn geometry_side(px: u32, py: u32, l0x: u32, l0y: u32, l1x: u32, l1y: u32) -> u32;
    fn geometry_on_segment(px: u32, py: u32, s0x: u32, s0y: u32, s1x: u32, s1y: u32) -> u32;
    fn geometry_in_bounding_box(px: u32, py: u32, s0x: u32, s0y: u32, s1x: u32, s1y: u32) -> u32;
    fn geometry_mirror(px: u32, py: u32, l0x: u32, l0y: u32, l1x: u32, l1y: u32, out: &mut [u32; 2]);
    fn geometry_heuristic(rx: u32, ry: u32, gx: u32, gy: u32, i0x: u32, i0y: u32, i1x: u32, i1y: u32) -> u32;
    fn geometry_turning_point(rx: u32, ry: u32, gx: u32, gy: u32, i0x: u32, i0y: u32, i1x: u32, i1y: u32, out: &mut [u32; 2]) -> u32;
    fn geometry_intersection_time(l0x: u32, l0y: u32, l1x: u32, l1y: u32, s0x: u32, s0y: u32, s1x: u32, s1y: u32) -> u32;
    fn geometry_line_intersect_segment(l0x: u32, l0y: u32, l1x: u32, l1y: u32, s0x: u32, s0y: u32, s1x: u32, s1y: u32, out: &mut [u32; 2]) -> u32;
    fn geometry_distance(ax: u32, ay: u32, bx: u32, by: u32) -> u32;
    fn geometry_length(x: u32, y: u32) -> u32;
    fn geometry_dot(ax: u32, ay: u32, bx: u32, by: u32) -> u32;
    fn geometry_perp_dot(ax: u32, ay: u32, bx: u32, by: u32) -> u32;
    fn geometry_project_onto(x: u32, y: u32, rx: u32, ry: u32, out: &mut [u32; 2]);
}

#[link(name = "cone_c", kind = "static")]
#[rustfmt::skip]
extern "C" {
    fn geometry_clip_to_cone(rx: u32, ry: u32, c0x: u32, c0y: u32, c1x: u32, c1y: u32, s0x: u32, s0y: u32, s1x: u32, s1y: u32, out: &mut [u32; 4]) -> u32;
    fn geometry_lands_on(cx: u32, cy: u32, vx: u32, vy: u32, rx: u32, ry: u32) -> u32;
}

#[link(name = "walk_c", kind = "static")]
#[rustfmt::skip]
extern "C" {
    fn geometry_walk_edge(rx: u32, ry: u32, i0x: u32, i0y: u32, i1x: u32, i1y: u32, ax: u32, ay: u32, bx: u32, by: u32, kind: u32, out: &mut [u32; 16]) -> u32;
}

pub fn root(bits: u32) -> u32 {
    unsafe { geometry_root(bits) }
}

/// The tag that a call answers and the words that it leaves, or none if it wrote beside them.
fn left<const N: usize>(write: impl FnOnce(&mut [u32; N]) -> u32) -> Option<(u32, [u32; N])> {
    let mut out = Out { before: UNTOUCHED, words: [UNTOUCHED; N], after: UNTOUCHED };
    let tag = write(&mut out.words);
    (out.before == UNTOUCHED && out.after == UNTOUCHED).then_some((tag, out.words))
}

/// The words that are written, or tag 0 with nothing written. A word written where none may be shows as a wrong answer.
fn written<const N: usize>(write: impl FnOnce(&mut [u32; N]) -> u32) -> Answer {
    match left(write) {
        None => Answer::tag(u32::MAX),
        Some((0, words)) if words == [UNTOUCHED; N] => Answer::tag(0),
        Some((tag, words)) => Answer::words(tag, words),
    }
}

/// As `written`, for a function that always writes: its tag is 0 all the same.
fn always_written(write: impl FnOnce(&mut [u32; 2])) -> Answer {
    let answer = written(|out| {
        write(out);
        1
    });
    Answer { tag: answer.tag.wrapping_sub(1), ..answer }
}

/// Our function of that name.
#[rustfmt::skip]
pub fn called(name: &str) -> fn(&Input) -> Answer {
    match name {
        "root" => |i| Answer::bits(root(i[0])),
        "min" => |i| Answer::bits(unsafe { geometry_min(i[0], i[1]) }),
        "max" => |i| Answer::bits(unsafe { geometry_max(i[0], i[1]) }),
        "side" => |i| Answer::tag(unsafe { geometry_side(i[0], i[1], i[2], i[3], i[4], i[5]) }),
        "on_segment" => |i| Answer::tag(unsafe { geometry_on_segment(i[0], i[1], i[2], i[3], i[4], i[5]) }),
        "in_bounding_box" => |i| Answer::tag(unsafe { geometry_in_bounding_box(i[0], i[1], i[2], i[3], i[4], i[5]) }),
        "mirror" => |i| always_written(|out| unsafe { geometry_mirror(i[0], i[1], i[2], i[3], i[4], i[5], out) }),
        "heuristic" => |i| Answer::bits(unsafe { geometry_heuristic(i[0], i[1], i[2], i[3], i[4], i[5], i[6], i[7]) }),
        "turning_point" => |i| written(|out| unsafe { geometry_turning_point(i[0], i[1], i[2], i[3], i[4], i[5], i[6], i[7], out) }),
        "intersection_time" => |i| Answer::bits(unsafe { geometry_intersection_time(i[0], i[1], i[2], i[3], i[4], i[5], i[6], i[7]) }),
        "line_intersect_segment" => |i| written(|out| unsafe { geometry_line_intersect_segment(i[0], i[1], i[2], i[3], i[4], i[5], i[6], i[7], out) }),
        "distance" => |i| Answer::bits(unsafe { geometry_distance(i[0], i[1], i[2], i[3]) }),
        "length" => |i| Answer::bits(unsafe { geometry_length(i[0], i[1]) }),
        "dot" => |i| Answer::bits(unsafe { geometry_dot(i[0], i[1], i[2], i[3]) }),
        "perp_dot" => |i| Answer::bits(unsafe { geometry_perp_dot(i[0], i[1], i[2], i[3]) }),
        "clip_to_cone" => |i| written(|out| unsafe { geometry_clip_to_cone(i[0], i[1], i[2], i[3], i[4], i[5], i[6], i[7], i[8], i[9], out) }),
        "lands_on" => |i| Answer::tag(unsafe { geometry_lands_on(i[0], i[1], i[2], i[3], i[4], i[5]) }),
        "project_onto" => |i| always_written(|out| unsafe { geometry_project_onto(i[0], i[1], i[2], i[3], out) }),
        _ => panic!("no function geometry_{name} is declared here"),
    }
}

/// The number that geometry_walk_edge has for RightNonObservable, the kind to begin with.
const RIGHT_NON_OBSERVABLE: u32 = 2;

/// Round the polygon, edge by edge, from the one after the entry edge on: each goes on with the kind that the one before left.
pub fn walk(input: &Input) -> Walk {
    let (corners, entry) = (input[CORNERS], input[ENTRY]);
    let mut kind = RIGHT_NON_OBSERVABLE;
    let mut successors = Vec::with_capacity(21);
    for step in 1..corners {
        let edge = [(entry + step) % corners, (entry + step + 1) % corners];
        match walked_edge(input, edge, kind) {
            Some((intervals, next)) => {
                successors.extend(intervals.chunks_exact(5).map(|part| Successor::new(edge, [part[0], part[1], part[2], part[3]], part[4])));
                kind = next;
            }
            // No kind of the original's, so it shows.
            None => successors.push(Successor::new(edge, [0; 4], u32::MAX)),
        }
    }
    Walk(successors)
}

/// Five words an interval, and the kind to go on with; none if a word is written that must stay.
fn walked_edge(i: &Input, edge: [u32; 2], kind: u32) -> Option<(Vec<u32>, u32)> {
    let [a, b] = edge.map(|corner| 2 * (FIRST_CORNER + corner as usize));
    let (count, words) = left(|out| unsafe {
        geometry_walk_edge(i[0], i[1], i[2], i[3], i[4], i[5], used(i[a]), used(i[a + 1]), used(i[b]), used(i[b + 1]), kind, out)
    })?;
    let end = 5 * count as usize;
    let stays = (1..=3).contains(&count) && words[end..15].iter().all(|&word| word == UNTOUCHED);
    stays.then(|| (words[..end].to_vec(), words[15]))
}

/// A vertex is used as its coordinates plus 0.0.
fn used(bits: u32) -> u32 {
    (f32::from_bits(bits) + 0.0).to_bits()
}
