//! Chooses cases to be stored, few and small enough for a test program.

use std::cmp::Reverse;
use std::collections::BTreeMap;

use super::shown::{shown, Detail, Sort};
use super::stored::push_case;
use super::{case, Case};
use crate::flat;

/// The longest input that is stored.
const LARGEST_INPUT: usize = 890_000;

/// So many cases are looked at for each that is taken.
const TRIALS: u64 = 60;

/// Cases with no more bytes than this are taken first.
const SMALL: usize = 1_600;

/// Families that show more than others, with how many are taken for one.
const LARGER_SHARES: [(&str, usize); 4] = [("bounds", 4), ("junk", 2), ("near", 2), ("rules", 2)];

#[derive(Clone, Copy)]
struct Candidate {
    index: u64,
    size: usize,
}

/// How many of each were taken in all families.
#[derive(Default)]
struct Taken {
    sorts: BTreeMap<Sort, usize>,
    details: BTreeMap<(Sort, Detail), usize>,
}

/// The candidates of one family.
#[derive(Default)]
struct Family {
    /// How many are taken by turns.
    share: usize,
    sorts: BTreeMap<(Sort, Detail), Vec<Candidate>>,
    /// How many were found with each refusal number.
    found: [usize; 14],
    /// How many of these were taken.
    taken: [usize; 14],
}

/// So many cases of all families and sorts, or as many as fit: mostly small
/// ones, and the largest of each family.
pub fn choose(seed: u64, count: usize) -> Vec<Case> {
    let mut families = candidates(seed, count as u64 * TRIALS);
    let mut chosen: Vec<Candidate> = families.iter_mut().filter_map(Family::largest).collect();
    chosen.truncate(count);
    let mut left = LARGEST_INPUT - chosen.iter().map(|found| found.size).sum::<usize>();
    let mut taken = Taken::default();
    while chosen.len() < count && families.iter().any(|family| !family.sorts.is_empty()) {
        let turn: Vec<Candidate> =
            families.iter_mut().flat_map(|family| family.turn(&mut taken)).collect();
        for found in turn {
            if chosen.len() < count && found.size <= left {
                left -= found.size;
                chosen.push(found);
            }
        }
    }
    chosen.sort_by_key(|found| found.index);
    chosen.iter().map(|found| case(seed, found.index)).collect()
}

fn candidates(seed: u64, count: u64) -> Vec<Family> {
    let mut families: BTreeMap<&str, Family> = BTreeMap::new();
    for index in 0..count {
        let case = case(seed, index);
        let answer = flat::answer(&case.numbers, case.step);
        let size = push_case(&mut Vec::new(), &case);
        let family = families.entry(case.family).or_default();
        family.found[usize::from(answer.refusal)] += 1;
        let same = family.sorts.entry(shown(&case, &answer)).or_default();
        same.push(Candidate { index, size });
    }
    for (name, family) in &mut families {
        let larger = LARGER_SHARES.iter().find(|(known, _)| known == name);
        family.share = larger.map_or(1, |(_, share)| *share);
        for found in family.sorts.values_mut() {
            // At the end, from where they are taken, small ones as they come;
            // before them the others by size.
            found.sort_by_key(|found| Reverse((found.size.max(SMALL), found.index)));
        }
    }
    families.into_values().collect()
}

impl Family {
    /// Takes the largest case.
    fn largest(&mut self) -> Option<Candidate> {
        let size = |found: &Vec<Candidate>| found.first().map(|largest| largest.size);
        let most = self.sorts.values_mut().max_by_key(|found| size(found))?;
        (!most.is_empty()).then(|| most.remove(0))
    }

    /// Takes as many as the family's share is.
    fn turn(&mut self, taken: &mut Taken) -> Vec<Candidate> {
        (0..self.share).filter_map(|_| self.next(taken)).collect()
    }

    /// Takes one with the refusal that is most behind, where the share of each
    /// is the root of how many were found; of these one of the sort that is
    /// most behind in all families, where the share of each is the root of how
    /// many details it has here.
    fn next(&mut self, taken: &mut Taken) -> Option<Candidate> {
        self.sorts.retain(|_, found| !found.is_empty());
        let mut details: BTreeMap<Sort, usize> = BTreeMap::new();
        for (sort, _) in self.sorts.keys() {
            *details.entry(*sort).or_insert(0) += 1;
        }
        let rank = |key: &&(Sort, Detail)| {
            let number = usize::from(key.0.refusal);
            let times = taken.sorts.get(&key.0).copied().unwrap_or(0);
            (
                behind(self.taken[number], self.found[number]),
                behind(times, details[&key.0]),
                taken.details.get(key),
            )
        };
        let next = *self.sorts.keys().min_by_key(rank)?;
        *taken.sorts.entry(next.0).or_insert(0) += 1;
        *taken.details.entry(next).or_insert(0) += 1;
        self.taken[usize::from(next.0.refusal)] += 1;
        self.sorts.get_mut(&next)?.pop()
    }
}

/// Smaller for what was taken less often than the root of its number asks.
fn behind(taken: usize, number: usize) -> usize {
    (taken + 1).pow(2) * 1_000_000 / number
}
