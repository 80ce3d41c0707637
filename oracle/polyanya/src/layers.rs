//! Stands in for the original's layers.rs, which is not in the extract. The walk and the search read
//! its fields; the functions that look a place up are there for lib.rs to compile, and none is called.

use glam::Vec2;
use smallvec::SmallVec;

use crate::{MeshError, Polygon, Vertex};

const NOT_IN_THE_EXTRACT: &str = "layers.rs is not in the extract";

/// One layer of a mesh.
#[derive(Debug, Clone)]
pub struct Layer {
    /// The vertices.
    pub vertices: Vec<Vertex>,
    /// The polygons.
    pub polygons: Vec<Polygon>,
    /// Added to every vertex.
    pub offset: Vec2,
    pub(crate) islands: Option<Vec<usize>>,
}

impl Layer {
    /// A layer at offset zero.
    pub fn new(vertices: Vec<Vertex>, polygons: Vec<Polygon>) -> Result<Layer, MeshError> {
        let (offset, islands) = (Vec2::ZERO, None);
        Ok(Layer { vertices, polygons, offset, islands })
    }

    /// None: this stand-in has no heights.
    pub fn heights(&self) -> Option<&[f32]> {
        None
    }

    pub(crate) fn bake(&mut self) {}

    pub(crate) fn unbake(&mut self) {}

    pub(crate) fn get_point_location(&self, _: Vec2, _delta: f32) -> Option<u32> {
        unimplemented!("{NOT_IN_THE_EXTRACT}")
    }

    pub(crate) fn push_point_locations(
        &self,
        _: Vec2,
        _delta: f32,
        _step: u32,
        _layer: u8,
        _found: &mut SmallVec<[u32; 1]>,
    ) {
        unimplemented!("{NOT_IN_THE_EXTRACT}")
    }

    pub(crate) fn get_closest_point_inner(&self, _: Vec2, _delta: f32, _step: u32) -> Option<(Vec2, u32)> {
        unimplemented!("{NOT_IN_THE_EXTRACT}")
    }

    pub(crate) fn get_closest_points_inner(&self, _: Vec2, _delta: f32, _step: u32) -> Vec<(Vec2, u32)> {
        unimplemented!("{NOT_IN_THE_EXTRACT}")
    }

    pub(crate) fn get_closest_point_towards_inner(
        &self,
        _: Vec2,
        _delta: f32,
        _towards: Vec2,
        _step: u32,
    ) -> Option<(Vec2, u32)> {
        unimplemented!("{NOT_IN_THE_EXTRACT}")
    }
}
