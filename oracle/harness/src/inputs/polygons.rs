//! Inputs of the walk: a polygon of 3 to 8 corners, the edge that it was entered over, a root and an interval.

use glam::Vec2;

use super::wedges::{left_of, point, put};
use super::{Draw, Kind};
use crate::functions::{Input, CORNERS, ENTRY, FIRST_CORNER};
use crate::halls::turned;

/// Cuts within this distance of a corner are passed over: its square is about f32 1e-6.
const PASSED_OVER: f32 = 1.0e-3;

impl Draw {
    pub(super) fn walk(&mut self) -> Input {
        let corners = 3 + self.random.below(6);
        let entry = self.random.below(corners);
        self.floats = 2 * (FIRST_CORNER + corners);
        let mut input = match self.kind {
            Kind::Wedge | Kind::Thin | Kind::OnEnd | Kind::Limit => self.room(corners, entry),
            _ => self.points(),
        };
        input[CORNERS] = corners as u32;
        input[ENTRY] = entry as u32;
        input
    }

    /// Corners counter-clockwise about a place, the interval on the entry edge, the root before it.
    fn room(&mut self, corners: usize, entry: usize) -> Input {
        let (centre, size) = self.place();
        let mut input = [0; 24];
        for (place, turn) in self.turns(corners).into_iter().enumerate() {
            let out = if self.random.below(2) == 0 { 1.0 } else { self.random.fraction() };
            put(&mut input, FIRST_CORNER + place, centre + direction(turn) * (out * size));
        }
        // The first edge's end is on the right hand of one who comes in over it.
        let right = point(&input, FIRST_CORNER + (entry + 1) % corners);
        let left = point(&input, FIRST_CORNER + entry);
        let (mut from, mut to) = (self.random.fraction(), self.random.fraction());
        if from > to {
            (from, to) = (to, from);
        }
        let at = |time: f32| right + (left - right) * time;
        let whole = self.random.below(4);
        put(&mut input, 1, if whole & 1 == 0 { right } else { at(from) });
        put(&mut input, 2, if whole & 2 == 0 { left } else { at(to) });
        let inwards = left_of(right - left) * (1.0 / (right - left).length());
        let (seen, away) = (self.random.fraction(), self.length(size));
        put(&mut input, 0, at(seen) + inwards * -away);
        match self.kind {
            Kind::Thin => self.thin(&mut input),
            Kind::OnEnd => self.on_end(&mut input, PASSED_OVER),
            Kind::Limit => self.cut_at_a_corner(&mut input, corners, entry),
            _ => (),
        }
        input
    }

    /// A ray is laid so that it cuts an edge about PASSED_OVER from one of its corners.
    fn cut_at_a_corner(&mut self, input: &mut Input, corners: usize, entry: usize) {
        let edge = (entry + 1 + self.random.below(corners - 1)) % corners;
        let mut ends = [edge, (edge + 1) % corners].map(|corner| FIRST_CORNER + corner);
        if self.random.below(2) == 0 {
            ends.reverse();
        }
        let [corner, other] = ends;
        // With the corner at the origin the cut is as exact as the floats there.
        if self.random.below(4) != 0 {
            let moved = point(input, corner);
            for place in 0..self.floats / 2 {
                put(input, place, point(input, place) - moved);
            }
        }
        let ray = 1 + self.random.below(2);
        let beside = self.few_floats_off_of(PASSED_OVER);
        let (near, root) = (point(input, corner), point(input, 0));
        if self.random.below(4) != 0 {
            // The ray along an axis, the edge short or long and in any direction: the cut's distance, too, is a few floats off.
            let along = self.random.pick(&[Vec2::new(1.0, 0.0), Vec2::new(0.0, 1.0), Vec2::new(-1.0, 0.0), Vec2::new(0.0, -1.0)]);
            let across = left_of(along);
            let slope = self.direction();
            let length = self.random.pick(&[0.0015, 0.003, 0.003, 0.00390625, 1.0, 1.5, 100.0]);
            let (before, after) = (self.length(4.0), self.length(4.0));
            let towards = self.random.pick(&[1.0, -1.0]);
            let on_ray = near + along * self.few_floats_off_of(beside * slope.x);
            put(input, other, near + (along * slope.x + across * slope.y) * length);
            put(input, 0, on_ray + across * (towards * before));
            put(input, ray, on_ray + across * (-towards * after));
            return;
        }
        let far = point(input, other);
        let cut = near + (far - near) * (beside / (far - near).length());
        let time = self.random.pick(&[1.0, 1.0, 0.5, 2.0, 0.25]);
        put(input, ray, root + (cut - root) * time);
        let word = 2 * ray + self.random.below(2);
        input[word] = self.few_floats_off(input[word]);
    }

    /// So many turns, growing.
    fn turns(&mut self, count: usize) -> Vec<f32> {
        let mut turns: Vec<f32> = (0..count).map(|_| 4.0 * self.random.fraction()).collect();
        turns.sort_by(f32::total_cmp);
        turns
    }
}

/// The direction after so many quarter turns.
fn direction(turn: f32) -> Vec2 {
    let on_square = turned(turn);
    on_square * (1.0 / on_square.length())
}
