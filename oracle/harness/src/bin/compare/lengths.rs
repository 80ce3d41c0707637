//! The lengths of document 01's routes beside the unchanged Rust's, and the cause of each that is another one: the listed
//! points that have to be taken the Rust's way until its length comes out.

use std::collections::BTreeMap;

use glam::Vec2;
use harness::floor::Floor;
use harness::listed_search::{search, Found, ALL, NONE, POINTS};
use harness::search01::Answer;
use polyanya::Mesh;

/// A floor as the Rust has it.
pub struct Ends(Mesh);

impl Ends {
    pub fn new(floor: &Floor) -> Ends {
        Ends(floor.mesh())
    }
}

/// What became of a question on the two sides.
#[derive(Clone, Copy, Debug, PartialEq, Eq, PartialOrd, Ord)]
enum Outcome {
    Same,
    Longer,
    Shorter,
    OnlyOurs,
    OnlyRusts,
    Neither,
}

impl Outcome {
    fn of(ours: Option<f32>, rusts: Option<f32>) -> Outcome {
        match (ours, rusts) {
            (Some(ours), Some(rusts)) if ours.to_bits() == rusts.to_bits() => Outcome::Same,
            (Some(ours), Some(rusts)) if ours > rusts => Outcome::Longer,
            (Some(_), Some(_)) => Outcome::Shorter,
            (Some(_), None) => Outcome::OnlyOurs,
            (None, Some(_)) => Outcome::OnlyRusts,
            (None, None) => Outcome::Neither,
        }
    }

    fn described(self) -> &'static str {
        match self {
            Outcome::Same => "both find a route, and its length has the same bits",
            Outcome::Longer => "both find a route, ours is longer",
            Outcome::Shorter => "both find a route, ours is shorter",
            Outcome::OnlyOurs => "we alone find a route",
            Outcome::OnlyRusts => "the Rust alone finds a route",
            Outcome::Neither => "neither finds a route",
        }
    }

    fn agrees(self) -> bool {
        matches!(self, Outcome::Same | Outcome::Neither)
    }
}

#[derive(Default)]
pub struct Counts {
    outcomes: BTreeMap<Outcome, usize>,
    /// By outcome and cause.
    causes: BTreeMap<(Outcome, u32), usize>,
    /// Where the search with all switches off is not search01, or with all on not the Rust.
    unlisted: usize,
    /// The smallest floor on which that was so.
    example: Option<(usize, String)>,
    /// The largest part of the Rust's length by which ours differs, and its cause.
    widest: (f32, u32),
}

impl Counts {
    pub fn add(&mut self, other: Counts) {
        other.outcomes.into_iter().for_each(|(outcome, count)| *self.outcomes.entry(outcome).or_default() += count);
        other.causes.into_iter().for_each(|(cause, count)| *self.causes.entry(cause).or_default() += count);
        self.unlisted += other.unlisted;
        self.example = [self.example.take(), other.example].into_iter().flatten().min();
        self.widest = wider(self.widest, other.widest);
    }

    pub fn compare(&mut self, ends: &Ends, floor: &Floor, (start, goal): (Vec2, Vec2), answer: &Answer) {
        let place = |point| (point, floor.polygon_of(point).expect("a point on the floor"));
        let path = ends.0.path_between(place(start), place(goal));
        let rusts: Option<Found> = path.map(|path| (path.path, path.length));
        let ours: Option<Found> = answer.route.as_ref().map(|route| (route.points.clone(), route.length));
        let of = |points| search(points, floor, start, goal);
        if bits(&of(NONE)) != bits(&ours) || bits(&of(ALL)) != bits(&rusts) {
            self.unlisted += 1;
            let text = format!("{start:?} to {goal:?} on {floor:?}: Rust {rusts:?}, all listed points the Rust's way {:?}", of(ALL));
            let example = Some((floor.polygons.len(), text));
            self.example = [self.example.take(), example].into_iter().flatten().min();
        }
        let (our_length, rusts_length) = (length(&ours), length(&rusts));
        let outcome = Outcome::of(our_length, rusts_length);
        *self.outcomes.entry(outcome).or_default() += 1;
        if !outcome.agrees() {
            let agrees = |points| length(&of(points)).map(f32::to_bits) == rusts_length.map(f32::to_bits);
            let cause = cause(agrees);
            *self.causes.entry((outcome, cause)).or_default() += 1;
            let wide = our_length.zip(rusts_length).map_or(0.0, |(ours, rusts)| (ours - rusts).abs() / rusts);
            self.widest = wider(self.widest, (wide, cause));
        }
    }

    /// How many questions end as the Rust's do, to the bit of the length, and of how many.
    pub fn agreed(&self) -> (usize, usize) {
        let agreed = self.outcomes.iter().filter(|(outcome, _)| outcome.agrees());
        (agreed.map(|(_, count)| count).sum(), self.outcomes.values().sum())
    }

    /// Answers on how many questions the list was not whole.
    pub fn print(&self) -> usize {
        println!("  beside the unchanged Rust, where both points are on the floor and nothing is short:");
        for (outcome, count) in &self.outcomes {
            println!("{count:>9}  {}", outcome.described());
            let of_it = self.causes.iter().filter(|((of, _), _)| of == outcome);
            let mut causes: Vec<_> = of_it.map(|((_, points), count)| (count, *points)).collect();
            causes.sort_by_key(|&(count, points)| (usize::MAX - count, points));
            causes.iter().for_each(|&(count, points)| println!("{count:>18}  {}", named(points)));
        }
        println!("  two lengths that were found differ by {:.1e} of the Rust's at most: {}", self.widest.0, named(self.widest.1));
        println!("{:>9}  are not explained by the listed points", self.unlisted);
        self.example.iter().for_each(|(_, text)| println!("    {text}"));
        self.unlisted
    }
}

fn wider(one: (f32, u32), other: (f32, u32)) -> (f32, u32) {
    if one.0 < other.0 { other } else { one }
}

/// The first point that alone gives the Rust's length, else a set of which none can be spared.
fn cause(agrees: impl Fn(u32) -> bool) -> u32 {
    let alone = (0..POINTS.len()).map(|place| 1 << place).find(|&point| agrees(point));
    alone.unwrap_or_else(|| {
        let spare = |points: u32, place: usize| if agrees(points & !(1 << place)) { points & !(1 << place) } else { points };
        (0..POINTS.len()).fold(ALL, spare)
    })
}

fn named(points: u32) -> String {
    let names: Vec<&str> = (0..POINTS.len()).filter(|place| points >> place & 1 == 1).map(|place| POINTS[place]).collect();
    names.join(" + ")
}

fn length(found: &Option<Found>) -> Option<f32> {
    found.as_ref().map(|found| found.1)
}

fn bits(found: &Option<Found>) -> Option<Vec<u32>> {
    let points = |(points, length): &Found| points.iter().flat_map(|point| [point.x, point.y]).chain([*length]).map(f32::to_bits).collect();
    found.as_ref().map(points)
}
