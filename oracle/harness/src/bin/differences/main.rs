//! Shows each point of docs/DIFFERENCES.md on one small input: what the unchanged Rust answers, and what we do. What is not
//! built yet on our side is document 01's rule, as `steps01` and `search01` have it.

use std::process::ExitCode;

mod geometry;
#[allow(dead_code)]
#[path = "../compare/ours.rs"]
mod ours;
mod searches;
mod steps;
mod text;

/// One point on one input, in words.
pub struct Shown {
    name: &'static str,
    input: String,
    rust: String,
    /// Who answers for us: the proved library, or document 01's rule in the harness.
    who: &'static str,
    ours: String,
    /// The answers are expected to be the same.
    agreed: bool,
}

pub const LIBRARY: &str = "library";
pub const RULE: &str = "01";

fn main() -> ExitCode {
    let all: Vec<Shown> = geometry::shown().into_iter().chain(steps::shown()).chain(searches::shown()).collect();
    let mut unexpected = 0;
    for Shown { name, input, rust, who, ours, agreed } in &all {
        println!("{name}");
        println!("  input    {input}");
        println!("  Rust     {rust}");
        println!("  {who:<9}{ours}");
        if (rust == ours) != *agreed {
            println!("  This is not what docs/DIFFERENCES.md says of it.");
            unexpected += 1;
        }
    }
    let agreed = all.iter().filter(|shown| shown.agreed).count();
    println!("{} inputs show a difference, {agreed} are to show none, {unexpected} are not as listed", all.len() - agreed);
    ExitCode::from((unexpected != 0) as u8)
}
