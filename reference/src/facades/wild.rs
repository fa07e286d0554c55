//! Steps whose kind and fields may be anything.

use super::frame::Frame;
use super::paint::paint;
use super::rules::UNKNOWN;
use super::{ground, steps};
use crate::facade::Facade;
use crate::flat::to_numbers;
use crate::random::Random;
use crate::step::FORMS;

pub fn make(random: &mut Random) -> (Vec<u32>, [u32; 4]) {
    let frame = Frame::any(random);
    let facade = paint(random, &frame);
    let mut step = steps::numbers(steps::accepted(random, &facade));
    match random.weighted(&[20, 55, 25]) {
        0 => step[0] = random.pick(&UNKNOWN),
        1 => {
            let fields = FORMS[step[0] as usize - 1].1;
            let field = random.below(fields.len());
            step[1 + field] = wild_field(random, &facade, fields[field]);
        }
        _ => {
            let kind = random.between(1, 10) as u32;
            let fields = FORMS[kind as usize - 1].1;
            step = [kind, 0, 0, 0];
            for (number, field) in step[1..].iter_mut().zip(fields) {
                *number = wild_field(random, &facade, field);
            }
        }
    }
    (to_numbers(&facade, &ground::any(random)), step)
}

/// Fields that the kind does not have may hold anything.
pub fn fill_other_fields(random: &mut Random, step: &mut [u32; 4]) {
    let form = (step[0] as usize).checked_sub(1).and_then(|index| FORMS.get(index));
    let count = form.map_or(0, |(_, fields)| fields.len());
    for number in &mut step[1 + count..] {
        let any = random.number() as u32;
        *number = random.pick(&[0, 1, 2, any, u32::MAX]);
    }
}

/// At an end of the field's range, one past it, or far from it.
fn wild_field(random: &mut Random, facade: &Facade, field: &str) -> u32 {
    let any = random.number() as u32;
    if random.chance(50) {
        return any;
    }
    match field {
        "d" => random.pick(&[0, 1, 2, 99_999, 100_000, 100_001, 1 << 31, u32::MAX]),
        "e" => {
            let far = [2_000, -2_000, 2_001, -2_001, -1, 1, i32::MIN, i32::MAX];
            random.pick(&far) as u32
        }
        "tau" => random.pick(&[0, 1, 2_000_000_000, 2_000_000_001, 1 << 31, u32::MAX]),
        "keep" | "says" => random.pick(&[0, 1, 2, 255, 256, 257, 1 << 31, u32::MAX]),
        "position" => at_end(random, facade.waiting.len(), 128),
        "client" => at_end(random, facade.clients.len(), 32),
        "party" => at_end(random, facade.offsets.len(), 36),
        _ => at_end(random, facade.servers.len(), 4),
    }
}

/// The first or last of so many, or past the end of those or of the room.
fn at_end(random: &mut Random, count: usize, room: u32) -> u32 {
    let count = count as u32;
    let last = count.saturating_sub(1);
    random.pick(&[0, last, count, count + 1, room - 1, room, 255, 256, 1 << 31, u32::MAX])
}
