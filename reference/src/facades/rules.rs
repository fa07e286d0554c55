//! Steps that break no rule, one rule, or two rules at once. The first of the
//! broken rules is the one that must be named.

use super::asked;
use super::bounds::break_one;
use super::{ground, moved};
use crate::facade::Facade;
use crate::flat::to_numbers;
use crate::random::Random;

/// For each kind of step, the rules that it can break by itself.
pub const SINGLE: [(u32, &[u8]); 10] = [
    (1, &[5, 6, 8, 9, 10]),
    (2, &[6, 7]),
    (3, &[6, 7]),
    (4, &[5, 6, 7, 11]),
    (5, &[6, 7, 12, 13]),
    (6, &[5, 6, 7, 13]),
    (7, &[5, 6, 7, 12, 13]),
    (8, &[5, 6, 13]),
    (9, &[6]),
    (10, &[6, 7]),
];

/// For each kind of step, the rules that it can break together. What does not
/// exist is in no state, but a notice names two servers. Of 5 and 11 only the
/// last byte of the says can break the second.
pub const PAIRS: [(u32, &[[u8; 2]]); 6] = [
    (1, &[[5, 6], [5, 8], [5, 9], [5, 10], [6, 8], [6, 9], [6, 10], [8, 9], [8, 10], [9, 10]]),
    (4, &[[5, 6], [5, 7], [5, 11], [6, 7], [6, 11], [7, 11]]),
    (5, &[[6, 12], [6, 13], [7, 12], [7, 13], [12, 13]]),
    (6, &[[5, 6], [5, 7], [5, 13], [6, 13], [7, 13]]),
    (7, &[[5, 6], [5, 7], [5, 12], [5, 13], [6, 12], [6, 13], [7, 12], [7, 13], [12, 13]]),
    (8, &[[5, 6], [5, 13]]),
];

/// Numbers of kinds that are none.
pub const UNKNOWN: [u32; 10] =
    [0, 11, 12, 255, 256, 257, 266, 1 << 24 | 1, i32::MIN as u32, u32::MAX];

/// The rules that a step is to break.
#[derive(Clone, Copy, Debug)]
pub struct Rules<'a>(pub &'a [u8]);

impl Rules<'_> {
    pub fn has(self, number: u8) -> bool {
        self.0.contains(&number)
    }
}

pub fn make(random: &mut Random) -> (Vec<u32>, [u32; 4]) {
    match random.weighted(&[8, 27, 40, 25]) {
        0 => {
            let kind = random.between(1, 10) as u32;
            in_range(random, kind, Rules(&[]))
        }
        1 => {
            let (kind, rule) = pick_single(random);
            in_range(random, kind, Rules(&[rule]))
        }
        2 => {
            let (kind, pair) = pick_pair(random);
            in_range(random, kind, Rules(&pair))
        }
        _ => {
            let (kind, rule) = pick_single(random);
            out_of_range(random, kind, rule)
        }
    }
}

/// Every rule as often as any other.
fn pick_single(random: &mut Random) -> (u32, u8) {
    let rule = random.between(5, 13) as u8;
    let breaking = SINGLE.iter().filter(|(_, rules)| rules.contains(&rule));
    let kinds: Vec<u32> = breaking.map(|(kind, _)| *kind).collect();
    (random.pick(&kinds), rule)
}

/// Every pair of every kind as often as any other.
fn pick_pair(random: &mut Random) -> (u32, [u8; 2]) {
    let weights = PAIRS.map(|(_, pairs)| pairs.len());
    let (kind, pairs) = PAIRS[random.weighted(&weights)];
    (kind, random.pick(pairs))
}

fn in_range(random: &mut Random, kind: u32, rules: Rules) -> (Vec<u32>, [u32; 4]) {
    let (facade, step) = broken(random, kind, rules);
    (to_numbers(&facade, &ground::any(random)), step)
}

/// Breaks that rule, or has an unknown kind, in a list that has a number out
/// of range besides.
fn out_of_range(random: &mut Random, kind: u32, rule: u8) -> (Vec<u32>, [u32; 4]) {
    let (facade, mut step) = broken(random, kind, Rules(&[rule]));
    if random.chance(60) {
        step[0] = random.pick(&UNKNOWN);
    }
    let mut list = to_numbers(&facade, &ground::fresh());
    break_one(random, &facade, &mut list);
    (list, step)
}

/// A facade in range, and a step of that kind that breaks these rules, and
/// none above the first of them.
pub fn broken(random: &mut Random, kind: u32, rules: Rules) -> (Facade, [u32; 4]) {
    match kind {
        1 => moved::pass(random, rules),
        4 => moved::notice(random, rules),
        5..=7 => asked::client_step(random, kind, rules),
        8 => asked::deliver(random, rules),
        9 => asked::lose(random, rules),
        _ => moved::server_step(random, kind, rules),
    }
}

/// A number from the count on.
pub fn beyond(random: &mut Random, count: usize) -> u32 {
    let count = count as u32;
    random.pick(&[count, count, count, count + 1, count + 100, 256, 1 << 31, u32::MAX])
}

/// A flag that is none.
pub fn bad_flag(random: &mut Random, right: u32) -> u32 {
    random.pick(&[2, 2, 3, 256 + right, 65_536 + right, u32::MAX])
}
