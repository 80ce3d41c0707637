//! Floors from pictures of their cells.

use glam::Vec2;
use harness::floor::Floor;

/// A row of the picture is a row of cells, the first on top; a cell is as wide and as high as `size` says, and the lower left corner
/// of the picture is at (0,0). `#` is no floor; `.` a polygon; `/` and `\` two triangles, parted as the stroke goes; up to three equal
/// letters side by side are one polygon, whose corners then lie in a line.
pub fn drawn(picture: &[&str], size: Vec2) -> Floor {
    let (wide, high) = (picture[0].len(), picture.len());
    let vertices = (0..=high).flat_map(|y| (0..=wide).map(move |x| Vec2::new(x as f32 * size.x, y as f32 * size.y)));
    let mut polygons = Vec::new();
    for y in 0..high {
        polygons.extend(in_row(picture[high - 1 - y].as_bytes(), y));
    }
    Floor::linked(vertices.collect(), &polygons)
}

fn in_row(cells: &[u8], y: usize) -> Vec<Vec<u32>> {
    let below = |x: usize| (y * (cells.len() + 1) + x) as u32;
    let above = |x: usize| ((y + 1) * (cells.len() + 1) + x) as u32;
    let mut polygons = Vec::new();
    let mut x = 0;
    while x < cells.len() {
        let next = x + run(&cells[x..]);
        match cells[x] {
            b'#' => (),
            b'/' => polygons.extend([vec![below(x), below(next), above(next)], vec![below(x), above(next), above(x)]]),
            b'\\' => polygons.extend([vec![below(x), below(next), above(x)], vec![below(next), above(next), above(x)]]),
            _ => polygons.push((x..=next).map(below).chain((x..=next).rev().map(above)).collect()),
        }
        x = next;
    }
    polygons
}

/// How many cells the polygon at the front takes.
fn run(cells: &[u8]) -> usize {
    if cells[0].is_ascii_alphabetic() {
        cells.iter().take_while(|&&cell| cell == cells[0]).count()
    } else {
        1
    }
}
