//! What selected scripts are to reach, each so many times at least.

use reference::held_ack::Meeting;
use reference::message::TYPES;
use reference::step::FORMS;
use reference::tally::Tally;

pub const WANTED: usize = 20;

/// Refusals that a short script can have.
const REFUSALS: [usize; 11] = [1, 2, 3, 4, 5, 6, 7, 9, 10, 11, 13];

/// Outcomes that each type of message can have, in the order of the types.
const OUTCOMES: [&[usize]; 7] =
    [&[0, 1, 2], &[0, 1, 2], &[0, 1, 2], &[0, 1], &[0, 1], &[0, 2], &[0, 1, 2]];

/// Each type and outcome.
fn deliveries() -> impl Iterator<Item = (usize, usize)> {
    let types = OUTCOMES.iter().enumerate();
    types.flat_map(|(index, outcomes)| outcomes.iter().map(move |&outcome| (index, outcome)))
}

/// How often a tally has each goal.
pub fn counts(tally: &Tally) -> Vec<usize> {
    let refusals = REFUSALS.iter().map(|&number| tally.refusals[number]);
    let steps = tally.steps[1..].iter().copied();
    let outcomes = deliveries().map(|(index, outcome)| tally.deliveries[index][outcome]);
    let kept = tally.held_acks[Meeting::OwnLater as usize];
    refusals.chain(steps).chain(outcomes).chain([kept]).collect()
}

/// Names of the goals, in the order of `counts`.
fn names() -> Vec<String> {
    let refusals = REFUSALS.iter().map(|number| format!("refusal {number}"));
    let steps = FORMS.iter().map(|(name, _)| format!("step {name}"));
    let outcomes =
        deliveries().map(|(index, outcome)| format!("{} with outcome {outcome}", TYPES[index]));
    let kept = "ack that ends before the hold".to_string();
    refusals.chain(steps).chain(outcomes).chain([kept]).collect()
}

/// The goals that are not reached often enough, with how often they are.
pub fn missed(counts: &[usize]) -> Vec<String> {
    let named = names().into_iter().zip(counts);
    named
        .filter(|(_, &count)| count < WANTED)
        .map(|(name, count)| format!("{name} ({count})"))
        .collect()
}

#[cfg(test)]
mod tests {
    use super::{counts, missed, names};
    use reference::tally::Tally;

    #[test]
    fn goals() {
        let none = counts(&Tally::default());
        assert_eq!(none.len(), 40);
        assert_eq!(names().len(), 40);
        assert_eq!(missed(&none).len(), 40);
        assert_eq!(missed(&[20; 40]), Vec::<String>::new());
    }
}
