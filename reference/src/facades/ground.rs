//! What the unused places hold.

use super::code::{choices, flags};
use crate::configuration::Configuration;
use crate::flat;
use crate::random::Random;

/// As a fresh facade has them, or all 0, or with junk here and there.
pub fn any(random: &mut Random) -> Vec<u32> {
    match random.weighted(&[70, 10, 14, 6]) {
        0 => fresh(),
        1 => vec![0; flat::places::LENGTH],
        2 => junk(random, 40),
        _ => junk(random, 1_000),
    }
}

pub fn fresh() -> Vec<u32> {
    flat::fresh(&Configuration::from_numbers([0; 7]))
}

/// So many of a thousand numbers, flags and cases are anything that codes
/// something; the others are as in a fresh facade.
pub fn junk(random: &mut Random, per_thousand: usize) -> Vec<u32> {
    let mut list = fresh();
    let mut lone_flags = list.clone();
    for number in &mut list {
        if random.chance(per_thousand) {
            *number = junk_number(random);
        }
    }
    for flag in flags() {
        if random.chance(per_thousand) {
            lone_flags[flag] = random.below(2) as u32;
        }
        list[flag] = lone_flags[flag];
    }
    for choice in choices() {
        if random.chance(per_thousand) {
            choice.choose(random, &mut list);
        } else {
            choice.set(&mut list, 0);
        }
    }
    list
}

fn junk_number(random: &mut Random) -> u32 {
    let small = random.below(200) as u32;
    let any = random.number() as u32;
    random.pick(&[1, small, small, any, any, 2_000_000_001, i32::MIN as u32, u32::MAX])
}
