//! An answer, in words: a tag and up to four floats, or the successors of a walk. Unused words are 0.

use std::fmt::{self, Display};

use glam::Vec2;

/// The one NaN that stands for all: two floats are the same answer when their bits agree or both are NaN.
pub const NAN: u32 = 0x7FC0_0000;

#[derive(Clone, Copy, Debug, PartialEq)]
pub struct Answer {
    /// A side, a yes or no, or whether there is a point or a segment.
    pub tag: u32,
    pub words: [u32; 4],
}

pub fn is_nan(bits: u32) -> bool {
    f32::from_bits(bits).is_nan()
}

pub fn one_nan(bits: u32) -> u32 {
    if is_nan(bits) {
        NAN
    } else {
        bits
    }
}

impl Answer {
    pub fn tag(tag: u32) -> Answer {
        Answer { tag, words: [0; 4] }
    }

    pub fn bits(a: u32) -> Answer {
        Answer::words(0, [a])
    }

    pub fn words<const N: usize>(tag: u32, words: [u32; N]) -> Answer {
        let mut answer = Answer::tag(tag);
        for (word, bits) in answer.words.iter_mut().zip(words) {
            *word = one_nan(bits);
        }
        answer
    }

    pub fn float(float: f32) -> Answer {
        Answer::bits(float.to_bits())
    }

    pub fn point(point: Vec2) -> Answer {
        Answer::words(0, [point.x.to_bits(), point.y.to_bits()])
    }

    pub fn point_or_none(point: Option<Vec2>) -> Answer {
        point.map_or(Answer::tag(0), |point| Answer { tag: 1, ..Answer::point(point) })
    }

    pub fn segment_or_none(segment: Option<(Vec2, Vec2)>) -> Answer {
        segment.map_or(Answer::tag(0), |segment| Answer::words(1, segment_bits(segment)))
    }
}

impl Display for Answer {
    fn fmt(&self, f: &mut fmt::Formatter) -> fmt::Result {
        let [a, b, c, d] = self.words;
        write!(f, "tag {}, words {a:08X} {b:08X} {c:08X} {d:08X}", self.tag)
    }
}

pub fn segment_bits((start, end): (Vec2, Vec2)) -> [u32; 4] {
    [start.x, start.y, end.x, end.y].map(f32::to_bits)
}

/// A part of an edge, as the walk passes it on.
#[derive(Clone, Copy, Debug, PartialEq)]
pub struct Successor {
    /// The edge's two corners, by number.
    pub edge: [u32; 2],
    /// The bits of its start and its end, with one NaN.
    pub interval: [u32; 4],
    /// 0 LeftNonObservable, 1 Observable, 2 RightNonObservable.
    pub kind: u32,
}

impl Successor {
    pub fn new(edge: [u32; 2], interval: [u32; 4], kind: u32) -> Successor {
        Successor { edge, interval: interval.map(one_nan), kind }
    }
}

/// All successors of a walk, in order.
#[derive(Debug, PartialEq)]
pub struct Walk(pub Vec<Successor>);

impl Display for Walk {
    fn fmt(&self, f: &mut fmt::Formatter) -> fmt::Result {
        write!(f, "{} successors", self.0.len())?;
        for Successor { edge: [from, to], interval: [a, b, c, d], kind } in &self.0 {
            write!(f, "\n      {from}-{to}: {a:08X} {b:08X} to {c:08X} {d:08X}, kind {kind}")?;
        }
        Ok(())
    }
}
