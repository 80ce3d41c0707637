//! A floor for both searches.

use glam::Vec2;
use harness::floor::{question, Floor, WALL};
use harness::search01::BUDGET;
use polyanya::{Mesh, Path};

use crate::cart;
use crate::lent::{Lengths, Lent, Told};

/// The places that the route program lends, and room for any route.
const LENT: Lengths = Lengths::of(2047, cart::ROUTE_BYTES);

/// A point and its polygon.
pub type Place = (Vec2, u32);

pub struct Hall {
    pub floor: Floor,
    /// The vertex list and the polygon list.
    stored: (Vec<u8>, Vec<u8>),
    pub mesh: Mesh,
}

impl Hall {
    pub fn new(floor: Floor) -> Hall {
        assert_eq!(floor.refused(), 0);
        Hall { stored: floor.bytes(), mesh: floor.mesh(), floor }
    }

    pub fn lists(&self) -> cart::Floor<'_> {
        cart::Floor { vertices: &self.stored.0, polygons: &self.stored.1 }
    }

    /// The number and the counted steps.
    pub fn asked(&self, lent: &mut Lent, question: &[u8]) -> (u32, usize) {
        let (answer, steps) = lent.search(self.lists(), question, BUDGET, &LENT);
        (answer.number, steps)
    }

    pub fn ours(&self, lent: &mut Lent, start: Vec2, goal: Vec2) -> (u32, usize) {
        self.asked(lent, &question(start, goal))
    }

    pub fn finds(&self, lent: &mut Lent, start: Vec2, goal: Vec2) -> bool {
        self.ours(lent, start, goal).0 == 0
    }

    /// The same on fresh paint, with the route.
    pub fn told(&self, lent: &mut Lent, start: Vec2, goal: Vec2) -> Told {
        lent.paint();
        lent.told(self.lists(), &question(start, goal), BUDGET, &LENT)
    }

    pub fn rusts(&self, (start, goal): (Place, Place)) -> Option<Path> {
        self.mesh.path_between(start, goal)
    }

    /// With their polygons, if these are two.
    pub fn ends(&self, start: Vec2, goal: Vec2) -> Option<(Place, Place)> {
        let (from, to) = (self.floor.polygon_of(start)?, self.floor.polygon_of(goal)?);
        (from != to).then_some(((start, from), (goal, to)))
    }

    /// Whether links lead from the one polygon to the other.
    pub fn joined(&self, ((_, from), (_, to)): (Place, Place)) -> bool {
        let mut reached = vec![from];
        let mut next = 0;
        while next < reached.len() {
            for &q in &self.floor.polygon(reached[next]).neighbours {
                if q != WALL && !reached.contains(&q) {
                    reached.push(q);
                }
            }
            next += 1;
        }
        reached.contains(&to)
    }
}
