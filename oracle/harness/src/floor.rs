//! A floor as document 01 has it under "The floor, as stored", and the same floor as a mesh of the original's.

use glam::Vec2;
use polyanya::{Mesh, Polygon as Listed, Vertex};

/// A neighbour that is none: a wall.
pub const WALL: u32 = u32::MAX;

pub const MOST_VERTICES: usize = 1024;
pub const MOST_POLYGONS: usize = 512;
pub const MOST_CORNERS: usize = 8;
const LIMIT: f32 = 16_384.0;

/// "finite, of magnitude at most 16,384"
pub fn is_in_range(point: &Vec2) -> bool {
    point.x.abs() <= LIMIT && point.y.abs() <= LIMIT
}

/// The question as stored.
pub fn question(start: Vec2, goal: Vec2) -> [u8; 16] {
    let mut bytes = [0; 16];
    let floats = [start.x, start.y, goal.x, goal.y];
    bytes.chunks_exact_mut(4).zip(floats).for_each(|(four, float)| four.copy_from_slice(&float.to_le_bytes()));
    bytes
}

/// The used slots of a record: edge i runs from corner i to corner i + 1, cyclically, and has neighbour i across it.
#[derive(Clone, Debug, PartialEq)]
pub struct Polygon {
    pub corners: Vec<u32>,
    pub neighbours: Vec<u32>,
}

impl Polygon {
    pub fn edges(&self) -> impl Iterator<Item = (u32, u32)> + '_ {
        (0..self.corners.len()).map(|i| (self.corners[i], self.corner_after(i)))
    }

    pub fn corner_after(&self, i: usize) -> u32 {
        self.corners[(i + 1) % self.corners.len()]
    }
}

#[derive(Clone, Debug, PartialEq)]
pub struct Floor {
    pub vertices: Vec<Vec2>,
    pub polygons: Vec<Polygon>,
}

impl Floor {
    /// With the neighbours worked out: across (a,b) stands the first other polygon that has (b,a).
    pub fn linked(vertices: Vec<Vec2>, corners: &[Vec<u32>]) -> Floor {
        let unlinked = |corners: &Vec<u32>| Polygon { corners: corners.clone(), neighbours: vec![WALL; corners.len()] };
        let mut polygons: Vec<Polygon> = corners.iter().map(unlinked).collect();
        for p in 0..polygons.len() {
            for (i, (a, b)) in polygons[p].clone().edges().enumerate() {
                let across = (0..polygons.len()).find(|&q| q != p && polygons[q].edges().any(|edge| edge == (b, a)));
                polygons[p].neighbours[i] = across.map_or(WALL, |q| q as u32);
            }
        }
        Floor { vertices, polygons }
    }

    /// A wall on both sides of the edge (a,b), where it was open.
    pub fn wall_up(&mut self, a: u32, b: u32) {
        for polygon in &mut self.polygons {
            let edges: Vec<_> = polygon.edges().collect();
            for (i, edge) in edges.into_iter().enumerate() {
                if edge == (a, b) || edge == (b, a) {
                    polygon.neighbours[i] = WALL;
                }
            }
        }
    }

    /// The number that tests 2 to 6 give, 0 if they pass. Slots that a record leaves unused can't be wrong here.
    pub fn refused(&self) -> u32 {
        if !(1..=MOST_VERTICES).contains(&self.vertices.len()) {
            2
        } else if !(1..=MOST_POLYGONS).contains(&self.polygons.len()) {
            3
        } else if !self.vertices.iter().all(is_in_range) {
            4
        } else if !self.polygons.iter().all(|polygon| self.has_corners(polygon)) {
            5
        } else if !(0..self.polygons.len()).all(|p| self.is_linked(p)) {
            6
        } else {
            0
        }
    }

    /// "3 to 8 corners, distinct, each below the vertex count."
    pub fn has_corners(&self, polygon: &Polygon) -> bool {
        let corners = &polygon.corners;
        let distinct = (1..corners.len()).all(|i| !corners[..i].contains(&corners[i]));
        (3..=MOST_CORNERS).contains(&corners.len()) && distinct && corners.iter().all(|&v| (v as usize) < self.vertices.len())
    }

    /// "if P names Q across edge (a,b), then Q is another listed polygon with an edge (b,a) that names P"
    pub fn is_linked(&self, p: usize) -> bool {
        let names = |q: &Polygon, edge, name| q.edges().zip(&q.neighbours).any(|pair| pair == (edge, &name));
        self.polygons[p].edges().zip(&self.polygons[p].neighbours).all(|((a, b), &q)| {
            let other = (q as usize != p).then(|| self.polygons.get(q as usize)).flatten();
            q == WALL || other.is_some_and(|other| names(other, (b, a), p as u32))
        })
    }

    /// "A vertex is used as its coordinates plus 0.0"
    pub fn vertex(&self, v: u32) -> Vec2 {
        self.vertices[v as usize] + Vec2::ZERO
    }

    pub fn polygon(&self, p: u32) -> &Polygon {
        &self.polygons[p as usize]
    }

    /// "A turn vertex is one on a wall edge": an end, by number, of a wall edge of any listed polygon.
    pub fn turns_at(&self, v: u32) -> bool {
        let is_wall_at = |((a, b), &q): ((u32, u32), &u32)| q == WALL && (a == v || b == v);
        self.polygons.iter().any(|polygon| polygon.edges().zip(&polygon.neighbours).any(is_wall_at))
    }

    /// "A polygon contains a point if the point is Right of none of its edges. The lowest-numbered one counts."
    pub fn polygon_of(&self, point: Vec2) -> Option<u32> {
        const RIGHT: u32 = 1;
        let is_right = |(a, b)| Mesh::side(point, (self.vertex(a), self.vertex(b))) == RIGHT;
        let found = self.polygons.iter().position(|polygon| !polygon.edges().any(is_right));
        found.map(|p| p as u32)
    }

    /// The two lists as stored: vertices, then polygons.
    pub fn bytes(&self) -> (Vec<u8>, Vec<u8>) {
        let vertices = self.vertices.iter().flat_map(|vertex| [vertex.x, vertex.y]).flat_map(f32::to_le_bytes).collect();
        let slots = |used: &Vec<u32>| (0..MOST_CORNERS).map(|i| used.get(i).copied().unwrap_or(WALL)).collect::<Vec<u32>>();
        let record = |polygon: &Polygon| [slots(&polygon.corners), slots(&polygon.neighbours)].concat();
        (vertices, self.polygons.iter().flat_map(record).flat_map(u32::to_le_bytes).collect())
    }

    /// The same floor for the original: at each vertex the polygons around it, rising, then "none" if it is on a wall.
    /// A polygon is one-way when it has a single neighbour, and a vertex is a corner when it is on a wall.
    pub fn mesh(&self) -> Mesh {
        let vertex = |v: usize| {
            let is_corner = self.turns_at(v as u32);
            let around = (0..self.polygons.len() as u32).filter(|&p| self.polygon(p).corners.contains(&(v as u32)));
            Vertex { coords: self.vertices[v], polygons: around.chain(is_corner.then_some(u32::MAX)).collect(), is_corner }
        };
        let listed = |polygon: &Polygon| {
            let mut named: Vec<u32> = polygon.neighbours.iter().copied().filter(|&q| q != WALL).collect();
            named.sort();
            named.dedup();
            Listed { vertices: polygon.corners.clone(), is_one_way: named.len() == 1 }
        };
        Mesh::new((0..self.vertices.len()).map(vertex).collect(), self.polygons.iter().map(listed).collect()).expect("a mesh")
    }
}
