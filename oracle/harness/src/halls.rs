//! Floors as large as a print works has them, in shapes that halls have, and points on them.

use glam::Vec2;

use crate::floor::Floor;
use crate::random::Random;

#[derive(Clone, Copy, Debug, PartialEq)]
pub enum Shape {
    /// A grid with obstacles: triangles, quadrilaterals, and two or three cells of a row as one polygon.
    Mixed,
    /// A grid with obstacles whose cells are two triangles each.
    Triangles,
    /// A corridor that goes to and fro.
    Corridor,
    /// Rings about a pillar, with a few doors between one and the next.
    Rings,
    /// A grid with obstacles, thousands of metres long and some metres wide.
    Long,
}

pub const SHAPES: [Shape; 5] = [Shape::Mixed, Shape::Triangles, Shape::Corridor, Shape::Rings, Shape::Long];

/// Vertices and polygons, before they are linked.
type Drawn = (Vec<Vec2>, Vec<Vec<u32>>);

/// Corners a to d of a cell, counter-clockwise.
type Cell = [u32; 4];

pub struct Halls {
    random: Random,
}

impl Halls {
    pub fn new(seed: u64) -> Halls {
        Halls { random: Random::new(seed) }
    }

    /// With so many polygons: exactly, but about that in the corridor and in the rings.
    pub fn floor(&mut self, shape: Shape, polygons: usize) -> Floor {
        let (vertices, mut drawn) = match shape {
            Shape::Mixed | Shape::Triangles => self.grid(shape, polygons),
            Shape::Long => self.long(polygons),
            Shape::Corridor => self.corridor(polygons),
            Shape::Rings => self.rings(polygons),
        };
        if matches!(shape, Shape::Mixed | Shape::Triangles | Shape::Long) {
            self.leave_out(&mut drawn, polygons);
        }
        for corners in &mut drawn {
            let first = self.random.below(corners.len());
            corners.rotate_left(first);
        }
        Floor::linked(vertices, &drawn)
    }

    /// Somewhere between the corners of some polygon.
    pub fn point(&mut self, floor: &Floor) -> Vec2 {
        let p = self.random.below(floor.polygons.len()) as u32;
        let corners: Vec<Vec2> = floor.polygon(p).corners.iter().map(|&v| floor.vertex(v)).collect();
        let mut between = corners[self.random.below(corners.len())];
        for &corner in &corners {
            between = between + (corner - between) * (0.125 + 0.5 * self.random.fraction());
        }
        between
    }

    // ---- grids

    /// Square, and with somewhat more polygons than are wanted.
    fn grid(&mut self, shape: Shape, polygons: usize) -> Drawn {
        let mut side = 2;
        loop {
            let drawn = self.cells(shape, side, side);
            if 8 * drawn.len() >= 9 * polygons {
                return (self.lines(shape, side, side), drawn);
            }
            side += 1;
        }
    }

    fn long(&mut self, polygons: usize) -> Drawn {
        let high = 2 + self.random.below(3);
        let mut wide = 4;
        loop {
            let drawn = self.cells(Shape::Mixed, wide, high);
            if 8 * drawn.len() >= 9 * polygons {
                let vertices = self.lines(Shape::Long, wide, high);
                return (stretched(vertices), drawn);
            }
            wide += 1;
        }
    }

    /// The crossings of lines at uneven distances. Triangles alone stay as they are when a crossing moves, so theirs do.
    fn lines(&mut self, shape: Shape, wide: usize, high: usize) -> Vec<Vec2> {
        let (across, up) = (self.distances(wide), self.distances(high));
        let lean = self.random.pick(&[0.0, 0.0, 0.3, -0.2]);
        let moved = if shape == Shape::Triangles { self.random.pick(&[0.0, 0.2]) } else { 0.0 };
        let mut vertices = Vec::new();
        for place in 0..(wide + 1) * (high + 1) {
            let (x, y) = (across[place % (wide + 1)], up[place / (wide + 1)]);
            let off = Vec2::new(self.random.fraction() - 0.5, self.random.fraction() - 0.5) * moved;
            vertices.push(Vec2::new(x + lean * y, y - lean * x) + off);
        }
        vertices
    }

    fn distances(&mut self, count: usize) -> Vec<f32> {
        let mut at = 0.0;
        let mut all = vec![at];
        for _ in 0..count {
            at += 1.0 + 0.5 * self.random.fraction();
            all.push(at);
        }
        all
    }

    fn cells(&mut self, shape: Shape, wide: usize, high: usize) -> Vec<Vec<u32>> {
        let number = |x: usize, y: usize| (y * (wide + 1) + x) as u32;
        let mut polygons = Vec::new();
        for y in 0..high {
            let mut x = 0;
            while x < wide {
                let taken = if shape == Shape::Triangles { 1 } else { (1 + self.random.below(3)).min(wide - x) };
                if taken == 1 {
                    let cell = [number(x, y), number(x + 1, y), number(x + 1, y + 1), number(x, y + 1)];
                    polygons.extend(self.cell(shape, cell));
                } else {
                    let lower = (0..=taken).map(|i| number(x + i, y));
                    polygons.push(lower.chain((0..=taken).rev().map(|i| number(x + i, y + 1))).collect());
                }
                x += taken;
            }
        }
        polygons
    }

    /// One polygon or two.
    fn cell(&mut self, shape: Shape, [a, b, c, d]: Cell) -> Vec<Vec<u32>> {
        let whole = if shape == Shape::Triangles { 0 } else { 2 };
        match self.random.below(2 + whole) {
            0 => vec![vec![a, b, c], vec![a, c, d]],
            1 => vec![vec![a, b, d], vec![b, c, d]],
            _ => vec![vec![a, b, c, d]],
        }
    }

    /// Obstacles stand where polygons are taken away.
    fn leave_out(&mut self, polygons: &mut Vec<Vec<u32>>, most: usize) {
        while polygons.len() > most {
            let place = self.random.below(polygons.len());
            polygons.swap_remove(place);
        }
    }

    // ---- strips: rows of cells that have vertices of their own

    fn corridor(&mut self, polygons: usize) -> Drawn {
        let rows = 2 + self.random.below(4);
        let cells = (2 * polygons / (3 * rows)).max(2);
        let mut vertices = Vec::new();
        for line in 0..2 * rows {
            let along = self.distances(cells);
            let y = (line / 2) as f32 * 2.0 + (line % 2) as f32;
            vertices.extend(along.into_iter().map(|x| Vec2::new(x, y)));
        }
        let number = |line: usize, place: usize| (line * (cells + 1) + place) as u32;
        let mut drawn = Vec::new();
        for place in 0..rows * cells {
            let (row, x) = (place / cells, place % cells);
            let at = |line, x| number(2 * row + line, x);
            drawn.extend(self.cell(Shape::Mixed, [at(0, x), at(0, x + 1), at(1, x + 1), at(1, x)]));
        }
        // The turn from a row into the next, on the right and on the left in turn.
        for row in 1..rows {
            let x = if row % 2 == 1 { cells - 1 } else { 0 };
            let (above, below) = (2 * row, 2 * row - 1);
            drawn.push(vec![number(below, x), number(below, x + 1), number(above, x + 1), number(above, x)]);
        }
        (vertices, drawn)
    }

    fn rings(&mut self, polygons: usize) -> Drawn {
        let rings = 1 + self.random.below(4);
        let cells = (2 * polygons / (3 * rings)).max(4);
        let mut vertices = Vec::new();
        for line in 0..2 * rings {
            let out = 2.0 + (line / 2) as f32 * 2.0 + (line % 2) as f32;
            vertices.extend((0..cells).map(|place| turned(4.0 * place as f32 / cells as f32) * out));
        }
        let number = |line: usize, place: usize| (line * cells + place % cells) as u32;
        let mut drawn = Vec::new();
        for place in 0..rings * cells {
            let (ring, x) = (place / cells, place % cells);
            let at = |line, x| number(2 * ring + line, x);
            drawn.extend(self.cell(Shape::Mixed, [at(0, x), at(1, x), at(1, x + 1), at(0, x + 1)]));
        }
        for ring in 1..rings {
            for _ in 0..1 + self.random.below(3) {
                let x = self.random.below(cells);
                let (inner, outer) = (2 * ring - 1, 2 * ring);
                let door = vec![number(inner, x), number(outer, x), number(outer, x + 1), number(inner, x + 1)];
                if !drawn.contains(&door) {
                    drawn.push(door);
                }
            }
        }
        (vertices, drawn)
    }
}

/// To a length of 12,000 about the origin, and four metres a cell across.
fn stretched(vertices: Vec<Vec2>) -> Vec<Vec2> {
    const LENGTH: f32 = 12_000.0;
    let longest = vertices.iter().fold(0.0, |most: f32, vertex| most.max(vertex.x));
    vertices.iter().map(|vertex| Vec2::new((vertex.x / longest - 0.5) * LENGTH, vertex.y * 4.0)).collect()
}

/// After so many quarter turns, on the square about the origin: no library's sine, so the same everywhere.
pub fn turned(turn: f32) -> Vec2 {
    let (quarter, rest) = (turn as u32 % 4, 2.0 * turn.fract() - 1.0);
    match quarter {
        0 => Vec2::new(1.0, rest),
        1 => Vec2::new(-rest, 1.0),
        2 => Vec2::new(-1.0, -rest),
        _ => Vec2::new(rest, -1.0),
    }
}
