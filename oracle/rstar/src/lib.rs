//! Stands in for rstar: the two names by which lib.rs gives a polygon its box. Nothing here looks a polygon up.

pub trait RTreeObject {
    type Envelope;

    fn envelope(&self) -> Self::Envelope;
}

#[derive(Debug)]
pub struct AABB<P>(pub P, pub P);

impl<P> AABB<P> {
    pub fn from_corners(lower: P, upper: P) -> AABB<P> {
        AABB(lower, upper)
    }
}
