//! What the harness calls. As a child of `instance` this module reaches that file's private functions
//! as well as the crate's own, without an edit to either; as functions of `Mesh`, a type that lib.rs
//! makes public, they can be called from outside the crate.

#![allow(missing_docs)]

use std::collections::HashSet;

use glam::Vec2;

use super::{InstanceStep, SearchInstance};
use crate::helpers::{self, Vec2Helper};
use crate::{Coords, Mesh, Path, Polygon, SearchNode, Vertex};

type Segment = (Vec2, Vec2);

/// The edge's two corners, the interval on it, and its kind: 0 LeftNonObservable, 1 Observable,
/// 2 RightNonObservable, the order of the enum.
pub type Successor = ([u32; 2], Segment, u32);

/// The polygon left, the polygon entered and the edge's first and second vertex; the interval; the root.
pub type Node = ([u32; 4], Segment, Vec2);

/// A point and the polygon that it is in.
pub type Place = (Vec2, u32);

impl Mesh {
    /// 0 Left, 1 Right, 2 Edge: the order of the enum.
    #[inline]
    pub fn side(point: Vec2, line: Segment) -> u32 {
        point.side(line) as u32
    }

    #[inline]
    pub fn mirror(point: Vec2, line: Segment) -> Vec2 {
        point.mirror(line)
    }

    #[inline]
    pub fn on_segment(point: Vec2, segment: Segment) -> bool {
        point.on_segment(segment)
    }

    #[inline]
    pub fn in_bounding_box(point: Vec2, segment: Segment) -> bool {
        point.in_bounding_box(segment)
    }

    #[inline]
    pub fn min(x: f32, y: f32) -> f32 {
        helpers::min(x, y)
    }

    #[inline]
    pub fn max(x: f32, y: f32) -> f32 {
        helpers::max(x, y)
    }

    #[inline]
    pub fn heuristic(root: Vec2, goal: Vec2, interval: Segment) -> f32 {
        helpers::heuristic(root, goal, interval)
    }

    #[inline]
    pub fn turning_point(root: Vec2, goal: Vec2, interval: Segment) -> Option<Vec2> {
        helpers::turning_point(root, goal, interval)
    }

    #[inline]
    pub fn intersection_time(line: Segment, segment: Segment) -> f32 {
        helpers::intersection_time(line, segment)
    }

    #[inline]
    pub fn line_intersect_segment(line: Segment, segment: Segment) -> Option<Vec2> {
        helpers::line_intersect_segment(line, segment)
    }

    #[inline]
    pub fn clip_to_cone(root: Vec2, cone: Segment, segment: Segment) -> Option<Segment> {
        super::clip_to_cone(root, cone, segment)
    }

    #[inline]
    pub fn lands_on(computed: Vec2, vertex: Vec2, root: Vec2) -> bool {
        super::lands_on(computed, vertex, root)
    }

    #[inline]
    pub fn snap_to_edge_end(cut: Vec2, start: Vec2, end: Vec2) -> Vec2 {
        SearchInstance::snap_to_edge_end(cut, start, end)
    }

    /// What a node sees in a mesh of one polygon that it entered over edge `entry`. The corners are numbered
    /// from 0. The node has the edge as the polygon that was left has it, so the other way round.
    pub fn edges_between(corners: &[Vec2], entry: u32, root: Vec2, interval: Segment) -> Vec<Successor> {
        let count = corners.len() as u32;
        let vertex = |&coords: &Vec2| Vertex { coords, polygons: Vec::new(), is_corner: false };
        let polygon = Polygon { vertices: (0..count).collect(), is_one_way: false };
        let mesh = Mesh::new(corners.iter().map(vertex).collect(), vec![polygon]).expect("a mesh");
        mesh.walked(([u32::MAX, 0, (entry + 1) % count, entry], interval, root))
    }

    /// What a node sees in the polygon that it entered.
    pub fn walked(&self, node: Node) -> Vec<Successor> {
        let nowhere: (Vec2, &[u32]) = (Vec2::ZERO, &[]);
        let search = SearchInstance::setup(self, nowhere, nowhere, HashSet::new());
        let successors = search.edges_between(&search_node(node));
        successors.iter().map(|successor| (successor.edge, successor.interval, successor.ty as u32)).collect()
    }

    /// The nodes that a search begins with, in the order in which they were made.
    pub fn begun(&self, start: Place, goal: Place) -> Vec<Node> {
        in_order(&SearchInstance::setup(self, (start.0, &[start.1]), (goal.0, &[goal.1]), HashSet::new()))
    }

    /// The nodes that go into the queue when this one is expanded, in the order in which they were made.
    pub fn expanded(&self, node: Node, goal: Place) -> Vec<Node> {
        let mut search = SearchInstance::setup(self, (node.2, &[]), (goal.0, &[goal.1]), HashSet::new());
        search.successors(search_node(node));
        in_order(&search)
    }

    /// What add_node makes of a segment that is seen from a node and leads on with the same root: one node or none.
    pub fn added(&self, node: Node, segment: Segment, goal: Place) -> Vec<Node> {
        let mut search = SearchInstance::setup(self, (node.2, &[]), (goal.0, &[goal.1]), HashSet::new());
        let [_, polygon, first, second] = node.0;
        search.add_node(node.2, polygon, (segment.0, first), (segment.1, second), &search_node(node));
        search.flush_nodes();
        in_order(&search)
    }

    /// The nodes that a search popped until it ended or popped so many, and the path if one was found.
    /// A stall limit that no count reaches switches the stall recording off.
    pub fn searched(&self, start: Place, goal: Place, stall_limit: Option<u32>, most: usize) -> (Vec<Node>, Option<Path>) {
        let mut search = SearchInstance::setup(self, (start.0, &[start.1]), (goal.0, &[goal.1]), HashSet::new());
        search.stall_limit = stall_limit.unwrap_or(search.stall_limit);
        let mut popped = Vec::new();
        while popped.len() < most {
            popped.extend(search.queue.peek().map(seen));
            match search.next() {
                InstanceStep::Found(path) => return (popped, Some(path)),
                InstanceStep::NotFound => break,
                InstanceStep::Continue => (),
            }
        }
        (popped, None)
    }

    /// How many nodes a search makes within that many pops, those that it expands in place among them.
    pub fn made(&self, start: Place, goal: Place, most: usize) -> usize {
        let mut search = SearchInstance::setup(self, (start.0, &[start.1]), (goal.0, &[goal.1]), HashSet::new());
        let going = |search: &mut SearchInstance| matches!(search.next(), InstanceStep::Continue);
        (0..most).take_while(|_| going(&mut search)).count();
        // The arena begins with the start's polygon.
        search.path_arena.len() - 1
    }

    /// The public search, the polygons of both points named, since the files that look them up are not in the extract.
    pub fn path_between(&self, start: Place, goal: Place) -> Option<Path> {
        let coords = |(pos, polygon_index): Place| Coords { pos, layer: Some(0), polygon_index };
        self.path(coords(start), coords(goal))
    }
}

fn search_node(([polygon_from, polygon_to, first, second], interval, root): Node) -> SearchNode {
    SearchNode {
        arena_parent: u32::MAX,
        root,
        interval,
        edge: (first, second),
        polygon_from,
        polygon_to,
        previous_polygon_layer: 0,
        distance_start_to_root: 0.0,
        heuristic: 0.0,
    }
}

/// What is queued, by the place in the arena that each node took when it was made.
fn in_order(search: &SearchInstance) -> Vec<Node> {
    let mut nodes: Vec<&SearchNode> = search.queue.iter().collect();
    nodes.sort_by_key(|node| node.arena_parent);
    nodes.into_iter().map(seen).collect()
}

fn seen(node: &SearchNode) -> Node {
    ([node.polygon_from, node.polygon_to, node.edge.0, node.edge.1], node.interval, node.root)
}
