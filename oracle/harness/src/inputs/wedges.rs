//! Inputs of the clip and of the landing, about the limits that they have of their own.

use glam::Vec2;

use super::{Draw, Kind};
use crate::functions::Input;

/// The clip's slack.
const SLACK: f32 = 1.0e-2;
/// The distance below which an interval's end lands on a vertex.
const LANDING: f32 = 2.0e-3;

pub(super) fn put(input: &mut Input, at: usize, point: Vec2) {
    input[2 * at] = point.x.to_bits();
    input[2 * at + 1] = point.y.to_bits();
}

pub(super) fn point(input: &Input, at: usize) -> Vec2 {
    Vec2::new(f32::from_bits(input[2 * at]), f32::from_bits(input[2 * at + 1]))
}

/// A quarter turn to the left.
pub(super) fn left_of(direction: Vec2) -> Vec2 {
    Vec2::new(-direction.y, direction.x)
}

impl Draw {
    pub(super) fn clip(&mut self) -> Input {
        match self.kind {
            Kind::Wedge | Kind::Thin | Kind::OnEnd | Kind::Limit => self.clip_of_a_wedge(),
            _ => self.points(),
        }
    }

    /// Root, the cone's right and left end, and a segment about the cone.
    fn clip_of_a_wedge(&mut self) -> Input {
        let (root, size) = self.place();
        let right = self.direction();
        let left = match self.random.below(4) {
            0 => left_of(right),
            _ => self.direction(),
        };
        let mut input = [0; 24];
        put(&mut input, 0, root);
        let (right_length, left_length) = (self.length(size), self.length(size));
        put(&mut input, 1, root + right * right_length);
        put(&mut input, 2, root + left * left_length);
        for end in [3, 4] {
            let (along_right, along_left) = (2.0 * self.random.fraction() - 0.5, 2.0 * self.random.fraction() - 0.5);
            put(&mut input, end, root + (right * along_right + left * along_left) * size);
        }
        match self.kind {
            Kind::Thin => self.thin(&mut input),
            Kind::OnEnd => self.on_end(&mut input, SLACK),
            Kind::Limit => {
                // An end of the segment as far outside a ray as the slack.
                let (ray, outside) = self.random.pick(&[(right, -1.0), (left, 1.0)]);
                let end = 3 + self.random.below(2);
                let along = self.length(size);
                let beside = self.few_floats_off_of(SLACK);
                put(&mut input, end, root + ray * along + left_of(ray) * (outside * beside));
            }
            _ => (),
        }
        input
    }

    /// The interval's left end a few floats from its right one, or on the same ray, or the same.
    pub(super) fn thin(&mut self, input: &mut Input) {
        let (root, right) = (point(input, 0), point(input, 1));
        let far = 4.0 * self.random.fraction();
        let on_ray = self.random.pick(&[right, right, root + (right - root) * far]);
        put(input, 2, on_ray);
        for word in [4, 5] {
            input[word] = self.few_floats_off(input[word]);
        }
        if self.random.below(16) == 0 {
            input.copy_within(2..4, 4);
        }
    }

    /// The root on an end of the interval, a few floats from it, or about so far from it.
    pub(super) fn on_end(&mut self, input: &mut Input, distance: f32) {
        let end = 1 + self.random.below(2);
        input.copy_within(2 * end..2 * end + 2, 0);
        match self.random.below(4) {
            0 | 1 => (),
            2 => {
                let word = self.random.below(2);
                input[word] = self.few_floats_off(input[word]);
            }
            _ => {
                let direction = self.direction();
                let beside = self.few_floats_off_of(distance);
                put(input, 0, point(input, end) + direction * beside);
            }
        }
    }

    /// Where a computed end stands about 0.002 from a vertex, and the root at any distance up to 80: from 40 on the
    /// Rust's allowance grows.
    pub(super) fn landing(&mut self) -> Input {
        let (vertex, _) = self.place();
        let aside = self.direction();
        let beside = self.few_floats_off_of(LANDING);
        let away = self.direction();
        let distance = match self.random.below(4) {
            0 => self.few_floats_off_of(40.0),
            1 => 80.0 * self.random.fraction(),
            _ => 40.0 * self.random.fraction(),
        };
        let mut input = [0; 24];
        put(&mut input, 0, vertex + aside * beside);
        put(&mut input, 1, vertex);
        put(&mut input, 2, vertex + away * distance);
        if self.random.below(2) == 0 {
            let word = self.random.below(2);
            input[word] = self.few_floats_off(input[word]);
        }
        input
    }

    /// A point and a size about it: the origin, a small one or anywhere on a floor.
    pub(super) fn place(&mut self) -> (Vec2, f32) {
        let size = self.random.pick(&[0.0625, 0.5, 1.0, 4.0, 16.0, 100.0, 1000.0, 8000.0]);
        let room = 16_384.0 - 2.0 * size;
        let half = |random: &mut super::Random| (random.below(33) as f32 - 16.0) / 2.0;
        let centre = match self.random.below(4) {
            0 => Vec2::ZERO,
            1 => Vec2::new(half(&mut self.random), half(&mut self.random)),
            2 => Vec2::new(4.0 * size * self.random.fraction(), 4.0 * size * self.random.fraction()),
            _ => Vec2::new(room * (2.0 * self.random.fraction() - 1.0), room * (2.0 * self.random.fraction() - 1.0)),
        };
        (centre, size)
    }

    /// Of length 1, along an axis every third time.
    pub(super) fn direction(&mut self) -> Vec2 {
        if self.random.below(3) == 0 {
            let (x, y) = self.random.pick(&[(1.0, 0.0), (0.0, 1.0), (-1.0, 0.0), (0.0, -1.0)]);
            return Vec2::new(x, y);
        }
        let any = Vec2::new(self.random.fraction() - 0.5, self.random.fraction() - 0.5);
        any * (1.0 / any.length())
    }

    /// Up to twice the size, or the size.
    pub(super) fn length(&mut self, size: f32) -> f32 {
        if self.random.below(3) == 0 {
            return size;
        }
        2.0 * size * self.random.fraction()
    }

    pub(super) fn few_floats_off_of(&mut self, float: f32) -> f32 {
        f32::from_bits(self.few_floats_off(float.to_bits()))
    }
}
