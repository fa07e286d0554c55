//! The flat form of a facade (docs/FLAT-FORM.md), and steps on it.
//!
//! A flat list has a number for every place, used or not, but `Facade` keeps
//! the used ones only. So a step goes in three: the used places are read, the
//! step is taken on them, and they are put over the list that was given, in
//! which the unused places have first been treated as docs/DECISIONS.md says
//! ("What a facade is").

mod cases;
pub mod places;
mod reading;
mod unused;
mod writing;

pub use reading::{from_numbers, Places};
pub use writing::{fresh, to_numbers};

use crate::facade::Facade;
use crate::refusal::{Outcome, Refusal};
use crate::step::{RawStep, Step};

/// The answer of a step on a flat list.
#[derive(Clone, Debug, PartialEq, Eq)]
pub struct Answer {
    /// 0 if the step is taken.
    pub refusal: u8,
    /// 0 if the step is refused.
    pub outcome: u8,
    /// The list afterwards; the one given, if the step is refused.
    pub facade: Vec<u32>,
}

/// One step, given as its kind and three fields, on any list at all.
pub fn answer(numbers: &[u32], step: [u32; 4]) -> Answer {
    match next(numbers, step) {
        Ok((outcome, facade)) => Answer { refusal: 0, outcome: outcome.number(), facade },
        Err(refusal) => Answer { refusal: refusal.number(), outcome: 0, facade: numbers.to_vec() },
    }
}

fn next(numbers: &[u32], step: [u32; 4]) -> Result<(Outcome, Vec<u32>), Refusal> {
    let before = facade_in_range(numbers)?;
    let step = parse(step)?;
    let mut after = before.clone();
    let outcome = after.apply(step)?;
    let mut list = numbers.to_vec();
    unused::change(&mut list, &before, step, &after, outcome);
    Ok((outcome, to_numbers(&after, &list)))
}

/// Refusal 2: for a list that codes nothing, and for a number out of range.
pub fn facade_in_range(numbers: &[u32]) -> Result<Facade, Refusal> {
    let facade = from_numbers(numbers).ok_or(Refusal::Range)?.facade()?;
    facade.check()?;
    Ok(facade)
}

/// Refusals 4 and 5. Kind 257 is unknown, not 1.
fn parse(step: [u32; 4]) -> Result<Step, Refusal> {
    let [kind, fields @ ..] = step;
    let kind = u8::try_from(kind).map_err(|_| Refusal::Kind)?;
    Step::parse(&RawStep { kind, fields })
}
