//! One number at an end of its range, or one past it.

use super::frame::Frame;
use super::limits::{limits, Limit};
use super::paint::paint;
use super::{code, ground, steps};
use crate::facade::Facade;
use crate::flat::{facade_in_range, places, to_numbers};
use crate::random::Random;

pub fn make(random: &mut Random) -> (Vec<u32>, [u32; 4]) {
    let mut frame = Frame::any(random).with_interactions();
    frame.waiting = random.pick(&[2, 4, 8, 8, 12, 12, 127, 128]);
    if random.chance(200) {
        // So early that clocks would be negative.
        frame.time = random.between(0, frame.skew());
    }
    let facade = paint(random, &frame);
    let step = if random.chance(850) {
        steps::accepted(random, &facade)
    } else {
        steps::any(random, &facade)
    };
    let mut list = to_numbers(&facade, &ground::any(random));
    match random.weighted(&[94, 3, 3]) {
        0 => set_one(random, &facade, &mut list),
        1 => {
            // No message where one is counted.
            let position = random.below(facade.waiting.len());
            code::message(position).set(&mut list, 0);
        }
        _ => {
            let waiting = facade.waiting.len() as u32;
            list[places::WAITING] = random.pick(&[waiting, waiting + 1, 128, 129]);
        }
    }
    (list, steps::numbers(step))
}

fn set_one(random: &mut Random, facade: &Facade, list: &mut [u32]) {
    let limit = pick(random, &limits(facade));
    let Limit { least, largest, .. } = limit;
    let number = random.pick(&[least, least - 1, largest, largest + 1]);
    // Negative numbers stand in two's complement; where none are meant they
    // are far too large.
    list[limit.place] = number as u32;
}

/// Every sort of number as often as any other.
fn pick(random: &mut Random, limits: &[Limit]) -> Limit {
    let mut sorts: Vec<_> = limits.iter().map(|limit| limit.sort).collect();
    sorts.sort_unstable();
    sorts.dedup();
    let sort = random.pick(&sorts);
    let same: Vec<Limit> = limits.iter().copied().filter(|limit| limit.sort == sort).collect();
    random.pick(&same)
}

/// Takes one number out of its range.
pub fn break_one(random: &mut Random, facade: &Facade, list: &mut [u32]) {
    let right = list.to_vec();
    while facade_in_range(list).is_ok() {
        list.copy_from_slice(&right);
        set_one(random, facade, list);
    }
}
