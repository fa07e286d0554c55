//! Lists of messages that are full or nearly so (refusal 13).

use super::frame::Frame;
use super::paint::{paint, Painter};
use super::{ground, plant, steps};
use crate::facade::{Client, Facade, LAST_INTERACTION};
use crate::flat::to_numbers;
use crate::message::TYPES;
use crate::random::Random;
use crate::step::Step;

/// From 124 to 128 messages wait, with any number of servers.
pub fn make(random: &mut Random) -> (Vec<u32>, [u32; 4]) {
    let mut frame = plant::plantable(Frame::any(random));
    frame.waiting = random.pick(&[124, 125, 126, 127, 127, 128, 128, 128]);
    if random.chance(900) {
        frame.next_interaction = frame.next_interaction.min(LAST_INTERACTION);
    }
    let mut facade = paint(random, &frame);
    let step = if random.chance(750) {
        deliver(random, &mut facade)
    } else {
        broadcast(random, &mut facade)
    };
    (to_numbers(&facade, &ground::any(random)), steps::numbers(step))
}

/// Mostly a message that is taken, kept or not.
fn deliver(random: &mut Random, facade: &mut Facade) -> Step {
    let last = facade.waiting.len() - 1;
    let any = random.below(last);
    let position = random.pick(&[0, any, any, last]);
    if random.chance(850) {
        let kind = random.below(TYPES.len());
        Painter { random: &mut *random, facade }.plant(position, kind);
    }
    Step::Deliver { position, keep: random.chance(500) }
}

/// A discover, request or renew, which sends as many as there are servers.
fn broadcast(random: &mut Random, facade: &mut Facade) -> Step {
    let client = random.below(facade.clients.len());
    let mut painter = Painter { random: &mut *random, facade };
    let address = painter.address();
    let end = painter.end(painter.facade.client_party(client));
    let wanted = painter.wanted(0);
    let interaction = 1;
    let (state, step) = match random.below(3) {
        0 => (Client::Idle, Step::Discover { client }),
        1 => (Client::Offered { interaction, address }, Step::Request { client, wanted }),
        _ => (Client::Holding { address, end, interaction }, Step::Renew { client, wanted }),
    };
    facade.clients[client] = state;
    step
}
