//! Anything at all in the unused places, as long as it codes something.

use super::frame::Frame;
use super::paint::{paint, Painter};
use super::{ground, plant, steps};
use crate::facade::Facade;
use crate::flat::to_numbers;
use crate::message::TYPES;
use crate::random::Random;
use crate::step::Step;

pub fn make(random: &mut Random) -> (Vec<u32>, [u32; 4]) {
    let mut frame = plant::plantable(Frame::any(random));
    frame.configuration.servers = random.pick(&[2, 2, 3, 4]);
    let mut facade = paint(random, &frame);
    let step = match random.weighted(&[35, 15, 15, 35]) {
        0 => deliver(random, &mut facade),
        1 => {
            let server = random.below(facade.servers.len());
            facade.servers[server].alive = false;
            Step::Return { server }
        }
        2 => Step::Lose { position: random.below(facade.waiting.len()) },
        _ => steps::accepted(random, &facade),
    };
    let amount = random.pick(&[30, 200, 1_000, 1_000]);
    (to_numbers(&facade, &ground::junk(random, amount)), steps::numbers(step))
}

/// Mostly one that opens a write, or closes one.
fn deliver(random: &mut Random, facade: &mut Facade) -> Step {
    let position = random.below(facade.waiting.len());
    let any = random.below(TYPES.len());
    let kind = random.pick(&[plant::REQUEST, plant::RENEW, plant::WRITE_ACK, any]);
    Painter { random: &mut *random, facade }.plant(position, kind);
    Step::Deliver { position, keep: random.chance(500) }
}
