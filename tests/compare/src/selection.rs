//! Selects generated scripts that together reach much.
//!
//! Every kind of script but the long one has its share. Candidates of a kind
//! are sorted by their number of servers and divided into groups, and the
//! best of each group is taken, so that every kind and every number of
//! servers stays.

use reference::generator::{self, Kind, KINDS};
use reference::tally::Tally;

use crate::goals::{counts, missed, WANTED};

/// The longest script that is selected.
const LONGEST: usize = 3_000;
/// Bytes per script over the whole selection.
const MEAN_LENGTH: usize = 1_650;
/// How many candidates compete for one place.
const GROUP: usize = 16;
/// What it is worth to come one nearer to a goal.
const GOAL_WORTH: f64 = 4.0;

struct Candidate {
    script: Vec<u8>,
    /// How often it reaches each goal.
    reached: Vec<usize>,
    /// What it is worth, goals aside.
    worth: f64,
}

/// The scripts, or the goals that they do not reach.
pub fn select(seed: u64, count: usize) -> Result<Vec<Vec<u8>>, Vec<String>> {
    let groups = groups(seed, count);
    let chosen = choose_within(&groups, MEAN_LENGTH * count);
    let missed = missed(&sums(&chosen));
    if !missed.is_empty() {
        return Err(missed);
    }
    Ok(chosen.iter().map(|candidate| candidate.script.clone()).collect())
}

fn groups(seed: u64, count: usize) -> Vec<Vec<Candidate>> {
    let kinds = KINDS.iter().filter(|(kind, ..)| *kind != Kind::Long);
    let total: usize = kinds.clone().map(|(.., share)| share).sum();
    let (mut shares, mut places) = (0, 0);
    let mut groups = Vec::new();
    for &(kind, _, share) in kinds {
        shares += share;
        let reached = (shares * count + total / 2) / total;
        groups.extend(groups_of_kind(seed, kind, reached - places));
        places = reached;
    }
    groups
}

fn groups_of_kind(seed: u64, kind: Kind, places: usize) -> Vec<Vec<Candidate>> {
    let mut candidates: Vec<Candidate> = (0..)
        .map(|index| generator::script(seed, index, Some(kind)))
        .filter(|script| script.len() <= LONGEST)
        .take(places * GROUP)
        .map(Candidate::new)
        .collect();
    // The last byte of the number of servers.
    candidates.sort_by_key(|candidate| candidate.script.get(4).copied());
    let mut groups = Vec::new();
    while !candidates.is_empty() {
        groups.push(candidates.split_off(candidates.len() - GROUP));
    }
    groups
}

impl Candidate {
    fn new(script: Vec<u8>) -> Self {
        let mut tally = Tally::default();
        tally.add(&script);
        Candidate { script, reached: counts(&tally), worth: worth(&tally) }
    }

    /// Its worth with what it adds to goals not yet reached, less the price
    /// of its bytes.
    fn score(&self, sums: &[usize], price: f64) -> f64 {
        let nearer: usize = (self.reached.iter().zip(sums))
            .map(|(&count, &sum)| count.min(WANTED.saturating_sub(sum)))
            .sum();
        self.worth + GOAL_WORTH * nearer as f64 - price * self.script.len() as f64
    }
}

/// Roots, because ten grants in one script show less than in ten.
fn worth(tally: &Tally) -> f64 {
    let renewals = tally.deliveries[2][0];
    [tally.grants, renewals, tally.completed_writes, tally.failovers, tally.expiries]
        .iter()
        .map(|&count| (count as f64).sqrt())
        .sum()
}

fn sums(chosen: &[&Candidate]) -> Vec<usize> {
    let mut sums = counts(&Tally::default());
    chosen.iter().for_each(|candidate| add(&mut sums, candidate));
    sums
}

fn add(sums: &mut [usize], candidate: &Candidate) {
    for (sum, count) in sums.iter_mut().zip(&candidate.reached) {
        *sum += count;
    }
}

/// The choice at the lowest price per byte that keeps the total length within
/// the limit.
fn choose_within(groups: &[Vec<Candidate>], limit: usize) -> Vec<&Candidate> {
    let (mut low, mut high) = (0.0, 1.0);
    for _ in 0..30 {
        let price = (low + high) / 2.0;
        let length: usize = choose(groups, price).iter().map(|chosen| chosen.script.len()).sum();
        if length > limit {
            low = price;
        } else {
            high = price;
        }
    }
    choose(groups, high)
}

/// The best of each group in turn.
fn choose(groups: &[Vec<Candidate>], price: f64) -> Vec<&Candidate> {
    let mut sums = counts(&Tally::default());
    let mut chosen = Vec::new();
    for group in groups {
        let score = |candidate: &Candidate| candidate.score(&sums, price);
        let best = group.iter().max_by(|left, right| score(left).total_cmp(&score(right)));
        if let Some(best) = best {
            add(&mut sums, best);
            chosen.push(best);
        }
    }
    chosen
}

#[cfg(test)]
mod tests {
    use super::{select, LONGEST, MEAN_LENGTH};

    #[test]
    fn selection() {
        let scripts = select(2, 420).expect("every goal is reached");
        assert_eq!(scripts.len(), 420);
        assert!(scripts.iter().all(|script| script.len() <= LONGEST));
        assert!(scripts.iter().map(Vec::len).sum::<usize>() <= 420 * MEAN_LENGTH);
    }

    #[test]
    fn too_few() {
        assert!(select(2, 3).is_err());
    }
}
