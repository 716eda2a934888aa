//! Demand 3, run: a user without READ and FULL, two tables that agree in what this user may read at the
//! maximum read label, and one sequence of calls on each: openings, label changes, reads, mapped reads and
//! updates. What the calls give may not differ, and rows that are hidden stay as they are.

mod leaky;
mod program;
mod run;
mod scene;
mod sequence;
mod tally;

pub use leaky::{lifted, Leak, Leaky};
pub use program::{HostCall, Library, Model, Program};
pub use run::{both, Difference, Outcome, Run};
pub use scene::Scene;
pub use sequence::{sequence, Step};
pub use tally::HiddenTally;

use crate::builder::Variant;
use crate::rng::Rng;

/// The scene of an edition, a profile and a seed, and its sequence of so many calls.
pub fn case(variant: Variant, seed: u64, calls: usize) -> (Scene, Vec<Step>) {
    let mut rng = Rng::new(seed);
    let scene = Scene::new(variant, &mut rng);
    let steps = sequence(&scene, calls, rng);
    (scene, steps)
}
