//! Stands in for the original's primitives.rs, which is not in the extract:
//! what lib.rs and instance.rs ask of a vertex and of a polygon.

use glam::Vec2;

use crate::{helpers::Vec2Helper, instance::EdgeSide, Layer};

/// A vertex: where it is, the polygons around it (u32::MAX for none), and whether a route may turn at it.
#[derive(Debug, Clone)]
pub struct Vertex {
    /// Where it is.
    pub coords: Vec2,
    /// The polygons around it.
    pub polygons: Vec<u32>,
    /// Whether a route may turn at it.
    pub is_corner: bool,
}

/// A polygon: its corners, counter-clockwise, and whether it has a single neighbour.
#[derive(Debug, Clone)]
pub struct Polygon {
    /// The corners' vertex numbers.
    pub vertices: Vec<u32>,
    /// Whether it has a single neighbour.
    pub is_one_way: bool,
}

impl Polygon {
    /// Edge i, cyclically: from corner i to corner i + 1.
    #[inline(always)]
    pub(crate) fn circular_edge(&self, i: usize) -> [u32; 2] {
        let count = self.vertices.len();
        [self.vertices[i % count], self.vertices[(i + 1) % count]]
    }

    pub(crate) fn edges_index(&self) -> impl Iterator<Item = [u32; 2]> + '_ {
        (0..self.vertices.len()).map(|i| self.circular_edge(i))
    }

    pub(crate) fn coords(&self, layer: &Layer) -> Vec<Vec2> {
        let coords_of = |vertex: &u32| layer.vertices[*vertex as usize].coords;
        self.vertices.iter().map(coords_of).collect()
    }

    pub(crate) fn contains(&self, layer: &Layer, point: Vec2) -> bool {
        self.edges_index().all(|[start, end]| {
            let coords_of = |vertex: u32| layer.vertices[vertex as usize].coords;
            point.side((coords_of(start), coords_of(end))) != EdgeSide::Right
        })
    }
}
