//! cart.h for Rust: the same functions, with slices for pointers and lengths. What each answers, and when, stands there.
//! A program has this file as a module and links the library, as examples/run_rust shows. It asks for no more than `core`.

// A program need not call all of it.
#![allow(dead_code)]

/// One record of a route.
pub const RECORD_BYTES: usize = 32;
/// The room that `words` asks for.
pub const WORDS_BYTES: usize = 64;

/// What a search needs for each node, and the most nodes that are used.
pub const NODE_FLOATS: usize = 11;
pub const NODE_WORDS: usize = 8;
pub const NODE_TREE: usize = 2;
pub const MOST_NODES: usize = 4096;
/// What an entry of the table takes. With as many entries as nodes 14 never comes, and more than `MOST_NODES` are not used.
pub const ENTRY_WORDS: usize = 10;
/// Room for any route.
pub const ROUTE_BYTES: usize = RECORD_BYTES * (MOST_NODES + 1);
/// The budget where there is no reason for another.
pub const BUDGET: usize = 4096;

#[link(name = "cart_c", kind = "static")]
#[rustfmt::skip]
extern "C" {
    fn cart_search(
        vertices: *const u8, vertices_length: usize, polygons: *const u8, polygons_length: usize,
        question: *const u8, question_length: usize, budget: usize, floats: *mut f32, floats_length: usize,
        words: *mut u32, words_length: usize, tree: *mut u32, tree_length: usize, table: *mut u32, table_length: usize,
        out: *mut u8, out_length: usize, steps: &mut usize, value: &mut usize,
    ) -> u32;
    fn cart_judge(
        vertices: *const u8, vertices_length: usize, polygons: *const u8, polygons_length: usize,
        question: *const u8, question_length: usize, route: *const u8, route_length: usize, record: &mut usize,
    ) -> u32;
    fn cart_read_out(
        vertices: *const u8, vertices_length: usize, polygons: *const u8, polygons_length: usize,
        question: *const u8, question_length: usize, route: *const u8, route_length: usize,
        points: *mut f32, points_length: usize, value: &mut usize,
    ) -> u32;
    fn cart_words(number: u32, words: &mut [u8; WORDS_BYTES]) -> usize;
}

/// The vertex list and the polygon list, as stored.
#[derive(Clone, Copy)]
pub struct Floor<'a> {
    pub vertices: &'a [u8],
    pub polygons: &'a [u8],
}

/// The work buffers of a search, and the table of one that stalls.
pub struct Work<'a> {
    pub floats: &'a mut [f32],
    pub words: &'a mut [u32],
    pub tree: &'a mut [u32],
    pub table: &'a mut [u32],
}

/// The number, and what was written to `*value` or `*record`, if anything was.
#[derive(Clone, Copy, Debug, PartialEq)]
pub struct Answer {
    pub number: u32,
    pub value: Option<usize>,
}

/// Stands where a call may write. No record, count or length is as large.
const UNWRITTEN: usize = usize::MAX;

impl Answer {
    fn new(number: u32, value: usize) -> Answer {
        Answer { number, value: (value != UNWRITTEN).then_some(value) }
    }
}

// Each call below is sound: a slice's pointer goes with its own length, and what is written to is borrowed by the call alone.

/// The answer, and the steps that were taken.
pub fn search(floor: Floor, question: &[u8], budget: usize, work: Work, out: &mut [u8]) -> (Answer, usize) {
    let Floor { vertices, polygons } = floor;
    let Work { floats, words, tree, table } = work;
    let (mut steps, mut value) = (UNWRITTEN, UNWRITTEN);
    #[rustfmt::skip]
    let number = unsafe {
        cart_search(
            vertices.as_ptr(), vertices.len(), polygons.as_ptr(), polygons.len(), question.as_ptr(), question.len(), budget,
            floats.as_mut_ptr(), floats.len(), words.as_mut_ptr(), words.len(), tree.as_mut_ptr(), tree.len(),
            table.as_mut_ptr(), table.len(), out.as_mut_ptr(), out.len(), &mut steps, &mut value,
        )
    };
    (Answer::new(number, value), steps)
}

pub fn judge(floor: Floor, question: &[u8], route: &[u8]) -> Answer {
    let Floor { vertices, polygons } = floor;
    let mut record = UNWRITTEN;
    #[rustfmt::skip]
    let number = unsafe {
        cart_judge(
            vertices.as_ptr(), vertices.len(), polygons.as_ptr(), polygons.len(), question.as_ptr(), question.len(),
            route.as_ptr(), route.len(), &mut record,
        )
    };
    Answer::new(number, record)
}

pub fn read_out(floor: Floor, question: &[u8], route: &[u8], points: &mut [f32]) -> Answer {
    let Floor { vertices, polygons } = floor;
    let mut value = UNWRITTEN;
    #[rustfmt::skip]
    let number = unsafe {
        cart_read_out(
            vertices.as_ptr(), vertices.len(), polygons.as_ptr(), polygons.len(), question.as_ptr(), question.len(),
            route.as_ptr(), route.len(), points.as_mut_ptr(), points.len(), &mut value,
        )
    };
    Answer::new(number, value)
}

pub fn words(number: u32, room: &mut [u8; WORDS_BYTES]) -> &str {
    let length = unsafe { cart_words(number, room) };
    core::str::from_utf8(&room[..length]).expect("the words are ASCII")
}
