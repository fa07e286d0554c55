//! Lists that code nothing, and some that just escape it.

use super::code::{self, Choice};
use super::frame::Frame;
use super::paint::paint;
use super::{ground, steps};
use crate::facade::Facade;
use crate::flat::places::{self, ADDRESSES, CLIENTS, LENGTH, MESSAGES, SERVERS};
use crate::flat::to_numbers;
use crate::random::Random;

pub fn make(random: &mut Random) -> (Vec<u32>, [u32; 4]) {
    let frame = Frame::any(random);
    let facade = paint(random, &frame);
    let step = steps::accepted(random, &facade);
    let mut list = to_numbers(&facade, &ground::any(random));
    match random.weighted(&[35, 25, 25, 15]) {
        0 => {
            let flag = some_flag(random, &facade);
            list[flag] = random.pick(&[2, 2, 2, 3, 256, 257, 1 << 31, u32::MAX]);
        }
        1 => break_case(random, &facade, &mut list),
        2 => fill_missing(random, &facade, &mut list),
        _ => change_length(random, &mut list),
    }
    (list, steps::numbers(step))
}

/// Used and unused ones alike.
fn some(random: &mut Random, used: usize, room: usize) -> usize {
    if random.chance(500) {
        random.below(used)
    } else {
        random.below(room)
    }
}

fn some_place(random: &mut Random, facade: &Facade) -> (usize, usize) {
    let addresses = facade.configuration.addresses as usize;
    (some(random, facade.servers.len(), SERVERS), some(random, addresses, ADDRESSES))
}

fn some_flag(random: &mut Random, facade: &Facade) -> usize {
    let (server, address) = some_place(random, facade);
    let other = some(random, facade.servers.len(), SERVERS);
    match random.below(4) {
        0 => places::alive(server),
        1 => places::believed(server, other),
        2 => places::led(server, address),
        _ => places::acknowledged(server, address, other),
    }
}

fn some_choice(random: &mut Random, facade: &Facade) -> Choice {
    let (server, address) = some_place(random, facade);
    match random.below(4) {
        0 => code::reservation(server, address),
        1 => code::write(server, address),
        2 => code::client(some(random, facade.clients.len(), CLIENTS)),
        _ => code::message(some(random, facade.waiting.len(), MESSAGES)),
    }
}

/// A case just past the last, or far past; now and then the last itself.
fn break_case(random: &mut Random, facade: &Facade, list: &mut [u32]) {
    let choice = some_choice(random, facade);
    let cases = choice.form.fields.len() as u32;
    let known = list[choice.place];
    list[choice.place] =
        random.pick(&[cases, cases, cases, cases - 1, cases + 1, 256 + known, u32::MAX]);
}

/// A number other than 0 where the case has none.
fn fill_missing(random: &mut Random, facade: &Facade, list: &mut [u32]) {
    for _ in 0..20 {
        let missing = some_choice(random, facade);
        let places: Vec<usize> = missing.missing(list).collect();
        if !places.is_empty() {
            list[random.pick(&places)] = random.pick(&[1, 1, 7, 1 << 31, u32::MAX]);
            return;
        }
    }
}

fn change_length(random: &mut Random, list: &mut Vec<u32>) {
    let any = random.below(LENGTH);
    let length = random.pick(&[LENGTH - 1, LENGTH - 1, LENGTH + 1, LENGTH + 1, 0, 7, 2_800, any]);
    let filler = random.pick(&[0, 0, 1]);
    list.resize(length, filler);
}
