//! Makes facades that are handed in as flat lists, each with a step.

mod asked;
mod bounds;
mod code;
mod ends;
mod frame;
mod full;
mod ground;
mod junk;
pub mod limits;
mod moved;
mod near;
mod odd;
mod paint;
mod plant;
pub mod rules;
pub mod sample;
mod shown;
mod steps;
pub mod stored;
mod talk;
pub mod tally;
mod uncoded;
mod wild;

use crate::flat::to_numbers;
use crate::generator;
use crate::random::Random;
use frame::Frame;
use paint::paint;

/// A list of numbers, mostly the flat form of a facade, and a step on it.
#[derive(Clone, Debug, PartialEq, Eq)]
pub struct Case {
    pub family: &'static str,
    pub numbers: Vec<u32>,
    /// The kind and three fields.
    pub step: [u32; 4],
}

type Maker = fn(&mut Random) -> (Vec<u32>, [u32; 4]);

/// Families with how many of a hundred cases they are.
const FAMILIES: [(&str, usize, Maker); 11] = [
    // Facades that scripts reach.
    ("reached", 10, reached),
    // Any facade in range, any step.
    ("any", 7, any),
    // Conditions that just hold or just fail.
    ("near", 10, near::make),
    // What no script reaches, in range.
    ("odd", 9, odd::make),
    // One number at an end of its range or one past it.
    ("bounds", 16, bounds::make),
    // Lists that code nothing.
    ("uncoded", 6, uncoded::make),
    // Anything at all in the unused places.
    ("junk", 9, junk::make),
    // The last time, interactions and clocks.
    ("ends", 7, ends::make),
    // 124 to 128 messages.
    ("full", 8, full::make),
    // Several rules broken at once.
    ("rules", 13, rules::make),
    // Steps with any kind and fields.
    ("wild", 5, wild::make),
];

/// The names of the families.
pub fn families() -> impl Iterator<Item = &'static str> {
    FAMILIES.into_iter().map(|(name, _, _)| name)
}

/// Case number `index` of the series that the seed starts.
pub fn case(seed: u64, index: u64) -> Case {
    let mut random = Random::for_script(seed, index);
    let weights = FAMILIES.map(|(_, weight, _)| weight);
    let (family, _, make) = FAMILIES[random.weighted(&weights)];
    let (numbers, mut step) = make(&mut random);
    if random.chance(150) {
        wild::fill_other_fields(&mut random, &mut step);
    }
    Case { family, numbers, step }
}

/// A facade on a script's way, with the step that comes next there or another.
fn reached(random: &mut Random) -> (Vec<u32>, [u32; 4]) {
    let (facade, next) = generator::reached(Random::new(random.number()));
    let step = if random.chance(600) { next } else { steps::any(random, &facade) };
    (to_numbers(&facade, &ground::fresh()), steps::numbers(step))
}

fn any(random: &mut Random) -> (Vec<u32>, [u32; 4]) {
    let frame = Frame::any(random);
    let facade = paint(random, &frame);
    let step = steps::any(random, &facade);
    (to_numbers(&facade, &ground::any(random)), steps::numbers(step))
}
