//! The functions that are compared, as the original has them.

use glam::Vec2;
use polyanya::Mesh;

use crate::answer::{segment_bits, Answer, Successor, Walk};
use crate::inputs::{Kind, RANDOM_KINDS};

/// The input floats' bits, in the order of the C interface; those behind a function's own are 0.
/// A walk's are the root, the interval and up to eight corners; then the number of corners and that of the entry edge.
pub type Input = [u32; 24];

/// Where a walk's corners begin, counted in points.
pub const FIRST_CORNER: usize = 3;
pub const CORNERS: usize = 22;
pub const ENTRY: usize = 23;

pub struct Function<A> {
    /// geometry_NAME is ours.
    pub name: &'static str,
    /// Its number in the sample; 0 is not in it.
    pub number: u32,
    /// How many words it takes: floats, but for the last two of a walk.
    pub words: usize,
    pub original: fn(&Input) -> A,
    /// The random inputs, and how many chunks of each.
    pub kinds: &'static [Kind],
    pub chunks: usize,
    /// Inputs on which document 01 parts from the original, as docs/DIFFERENCES.md lists it: counted, not compared.
    pub listed: fn(&Input) -> bool,
}

fn float(input: &Input, at: usize) -> f32 {
    f32::from_bits(input[at])
}

/// The point at place `at`, counted in points.
fn point(input: &Input, at: usize) -> Vec2 {
    Vec2::new(float(input, 2 * at), float(input, 2 * at + 1))
}

/// The segment, line or interval that begins with the point at place `at`.
fn segment(input: &Input, at: usize) -> (Vec2, Vec2) {
    (point(input, at), point(input, at + 1))
}

/// Without a listed difference, on 20 chunks of the kinds that any function takes.
const fn function<A>(number: u32, name: &'static str, words: usize, original: fn(&Input) -> A) -> Function<A> {
    Function { name, number, words, original, kinds: &RANDOM_KINDS, chunks: 20, listed: |_| false }
}

pub const FUNCTIONS: [Function<Answer>; 18] = [
    function(1, "side", 6, |i| Answer::tag(Mesh::side(point(i, 0), segment(i, 1)))),
    function(2, "mirror", 6, |i| Answer::point(Mesh::mirror(point(i, 0), segment(i, 1)))),
    function(3, "on_segment", 6, |i| Answer::tag(Mesh::on_segment(point(i, 0), segment(i, 1)) as u32)),
    function(4, "in_bounding_box", 6, |i| Answer::tag(Mesh::in_bounding_box(point(i, 0), segment(i, 1)) as u32)),
    function(5, "min", 2, |i| Answer::float(Mesh::min(float(i, 0), float(i, 1)))),
    function(6, "max", 2, |i| Answer::float(Mesh::max(float(i, 0), float(i, 1)))),
    function(7, "heuristic", 8, |i| Answer::float(Mesh::heuristic(point(i, 0), point(i, 1), segment(i, 2)))),
    function(8, "turning_point", 8, |i| Answer::point_or_none(Mesh::turning_point(point(i, 0), point(i, 1), segment(i, 2)))),
    function(9, "intersection_time", 8, |i| Answer::float(Mesh::intersection_time(segment(i, 0), segment(i, 2)))),
    function(10, "line_intersect_segment", 8, |i| Answer::point_or_none(Mesh::line_intersect_segment(segment(i, 0), segment(i, 2)))),
    function(11, "root", 1, |i| Answer::float(float(i, 0).sqrt())),
    // glam's own
    function(0, "dot", 4, |i| Answer::float(point(i, 0).dot(point(i, 1)))),
    function(0, "perp_dot", 4, |i| Answer::float(point(i, 0).perp_dot(point(i, 1)))),
    function(0, "length", 2, |i| Answer::float(point(i, 0).length())),
    function(0, "distance", 4, |i| Answer::float(point(i, 0).distance(point(i, 1)))),
    function(0, "project_onto", 4, |i| Answer::point(point(i, 0).project_onto(point(i, 1)))),
    // private to instance.rs
    Function {
        kinds: &CLIP_KINDS,
        chunks: 10,
        ..function(0, "clip_to_cone", 10, |i| Answer::segment_or_none(Mesh::clip_to_cone(point(i, 0), segment(i, 1), segment(i, 3))))
    },
    Function {
        kinds: &LANDING_KINDS,
        listed: allowance_grows,
        ..function(0, "lands_on", 6, |i| Answer::tag(Mesh::lands_on(point(i, 0), point(i, 1), point(i, 2)) as u32))
    },
];

/// The walk round one polygon. Its original is the copy of the crate without the triangle call.
pub const WALK: Function<Walk> = Function { kinds: &WALK_KINDS, chunks: 8, ..function(0, "edges_between", 24, walked) };

const CLIP_KINDS: [Kind; 12] = {
    let [a, b, c, d, e, f, g, h] = RANDOM_KINDS;
    [a, b, c, d, e, f, g, h, Kind::Wedge, Kind::Thin, Kind::OnEnd, Kind::Limit]
};
const LANDING_KINDS: [Kind; 9] = {
    let [a, b, c, d, e, f, g, h] = RANDOM_KINDS;
    [a, b, c, d, e, f, g, h, Kind::Limit]
};
const WALK_KINDS: [Kind; 12] = CLIP_KINDS;

/// The Rust allows a landing more than 0.002 where the vertex is far from the root; document 01 does not.
fn allowance_grows(input: &Input) -> bool {
    5.0e-5 * point(input, 2).distance(point(input, 1)) > 2.0e-3
}

fn walked(input: &Input) -> Walk {
    let mut corners = [Vec2::ZERO; 8];
    for (place, corner) in corners.iter_mut().enumerate() {
        *corner = point(input, FIRST_CORNER + place);
    }
    let corners = &corners[..input[CORNERS] as usize];
    let successors = polyanya_general_walk::Mesh::edges_between(corners, input[ENTRY], point(input, 0), segment(input, 1));
    let successor = |(edge, interval, kind)| Successor::new(edge, segment_bits(interval), kind);
    Walk(successors.into_iter().map(successor).collect())
}
