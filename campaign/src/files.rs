//! A floor and a question whose bytes may be anything, and the read-out on them.

use std::fmt;

use crate::cart::{self, Answer, Floor};
use crate::lent::{SPARE, UNTOUCHED};

pub struct Files {
    pub vertices: Vec<u8>,
    pub polygons: Vec<u8>,
    pub question: Vec<u8>,
}

impl fmt::Debug for Files {
    fn fmt(&self, f: &mut fmt::Formatter) -> fmt::Result {
        let hex = |bytes: &[u8]| bytes.iter().map(|byte| format!("{byte:02x}")).collect::<String>();
        write!(f, "vertices {} polygons {} question {}", hex(&self.vertices), hex(&self.polygons), hex(&self.question))
    }
}

impl Files {
    pub fn floor(&self) -> Floor<'_> {
        Floor { vertices: &self.vertices, polygons: &self.polygons }
    }

    /// The answer and the bits of the points, x and y of each; of all cells, where one changed that may not.
    pub fn read_out(&self, route: &[u8], room: usize) -> (Answer, Vec<u32>) {
        let mut points = vec![f32::from_bits(UNTOUCHED); room + SPARE];
        let answer = cart::read_out(self.floor(), &self.question, route, &mut points[..room]);
        let listed = if answer.number == 0 { answer.value.map_or(0, |count| (2 * count).min(room)) } else { 0 };
        let mut bits: Vec<u32> = points.into_iter().map(f32::to_bits).collect();
        if bits[listed..].iter().all(|&cell| cell == UNTOUCHED) {
            bits.truncate(listed);
        }
        (answer, bits)
    }
}
