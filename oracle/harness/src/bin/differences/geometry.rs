//! Differences inside one function: the Rust's private functions beside our library's.

use glam::Vec2;
use harness::functions::{Input, CORNERS, ENTRY, FIRST_CORNER};
use polyanya::{Mesh, Polygon, Vertex};

use crate::text::{self, at, interval, point, points, successors};
use crate::{ours, Shown, LIBRARY, RULE};

pub fn shown() -> Vec<Shown> {
    vec![landing(), triangle(), snapping(), snapped_walk(), corner_at_the_count()]
}

fn put(input: &mut Input, place: usize, point: Vec2) {
    input[2 * place] = point.x.to_bits();
    input[2 * place + 1] = point.y.to_bits();
}

/// Up to 40 units away both allow 0.002.
fn landing() -> Shown {
    let (end, vertex, root) = (at(41.002014, 0.0), at(41.0, 0.0), at(0.0, 0.0));
    let mut input = [0; 24];
    for (place, given) in [end, vertex, root].into_iter().enumerate() {
        put(&mut input, place, given);
    }
    let words = |lands: bool| if lands { "lands" } else { "does not land" }.to_string();
    Shown {
        name: "Landing",
        input: format!("lands_on: end {}, vertex {}, root {}", point(end), point(vertex), point(root)),
        rust: words(Mesh::lands_on(end, vertex, root)),
        who: LIBRARY,
        ours: words(ours::called("lands_on")(&input).tag == 1),
        agreed: false,
    }
}

/// A polygon entered over its first edge, walked by the unchanged Rust and by our library.
fn walk(name: &'static str, corners: &[Vec2], root: Vec2, seen: (Vec2, Vec2)) -> Shown {
    let mut input = [0; 24];
    for (place, given) in [root, seen.0, seen.1].into_iter().enumerate() {
        put(&mut input, place, given);
    }
    for (place, &corner) in corners.iter().enumerate() {
        put(&mut input, FIRST_CORNER + place, corner);
    }
    input[CORNERS] = corners.len() as u32;
    input[ENTRY] = 0;
    let float = f32::from_bits;
    let part = |[a, b, c, d]: [u32; 4]| (at(float(a), float(b)), at(float(c), float(d)));
    Shown {
        name,
        input: format!("edges_between: triangle {} entered over 0-1, root {}, interval {}", points(corners), point(root), interval(seen)),
        rust: successors(Mesh::edges_between(corners, 0, root, seen)),
        who: LIBRARY,
        ours: successors(ours::walk(&input).0.into_iter().map(|successor| (successor.edge, part(successor.interval), successor.kind))),
        agreed: false,
    }
}

fn triangle() -> Shown {
    walk("Triangles: the walk", &[at(0.0, 0.0), at(2.0, 0.0), at(0.0, 2.0)], at(1.0, -1.0), (at(2.0, 0.0), at(1.0, 0.0)))
}

/// Twice its square is f32 1e-6 itself, so what is below that and what is at most that part here.
const OFF: f32 = 0.00070710678;

/// M-100's rule is "at most"; it comes with the triangle's own function.
fn snapping() -> Shown {
    let (cut, start, end) = (at(-OFF, -OFF), at(0.0, 0.0), at(-1.0, -1.0));
    let is_near = |end: Vec2| (cut - end).dot(cut - end) <= 1.0e-6;
    let ours = [start, end].into_iter().find(|&end| is_near(end)).unwrap_or(cut);
    Shown {
        name: "Snapping: the rule that M-100 brings",
        input: format!("snap_to_edge_end: cut {}, edge {}", point(cut), interval((start, end))),
        rust: point(Mesh::snap_to_edge_end(cut, start, end)),
        who: "M-100",
        ours: point(ours),
        agreed: false,
    }
}

/// Until then the general walk passes the same cut over, and its interval begins at the corner.
fn snapped_walk() -> Shown {
    let corners = [at(-1.0, -1.0), at(0.0, -1.0), at(0.0, 0.0)];
    walk("Snapping: the walk until then", &corners, at(-OFF, -2.0), (at(-OFF, -1.0), at(-1.0, -1.0)))
}

/// Two vertices are listed, and a third stands behind them in memory, which must not be seen.
fn corner_at_the_count() -> Shown {
    let vertex = |coords| Vertex { coords, polygons: Vec::new(), is_corner: false };
    let walked = |corner: u32| {
        let mut vertices: Vec<Vertex> = [at(0.0, 0.0), at(1.0, 0.0), at(0.0, 1.0)].map(vertex).into();
        // The third stays where it is and is never dropped, so the unchecked read finds a vertex.
        unsafe { vertices.set_len(2) };
        let polygon = Polygon { vertices: vec![0, 1, corner], is_one_way: false };
        let mesh = Mesh::new(vertices, vec![polygon]).expect("a mesh");
        successors(mesh.walked(([u32::MAX, 0, 1, 0], (at(1.0, 0.0), at(0.0, 0.0)), at(0.0, -1.0))))
    };
    let floor = text::floor(&[(0.0, 0.0), (1.0, 0.0)], &[&[0, 1, 2]]);
    Shown {
        name: "A corner equal to the vertex count",
        input: "edges_between: vertices (0, 0) (1, 0), with (0, 1) behind them in memory, polygon 0,1,2 entered over 0-1, root (0, -1)".to_string(),
        rust: format!("{} (with the corner 3 in place of 2: {})", walked(2), walked(3)),
        who: RULE,
        ours: format!("the floor is refused with {}", floor.refused()),
        agreed: false,
    }
}
