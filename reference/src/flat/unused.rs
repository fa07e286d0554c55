//! What becomes of the unused places at a step. They stay as they are, with
//! the exceptions below (docs/DECISIONS.md, "What a facade is"). Each
//! exception fills whole rows of places, the used among them, which are
//! overwritten afterwards by what the step gives.

use super::places::{self, ADDRESSES, MESSAGE, SERVERS, WRITE};
use super::writing::put;
use crate::facade::{Facade, Tick};
use crate::message::Body;
use crate::refusal::Outcome;
use crate::step::Step;

/// Changes the list that was given to an accepted step. A sent message fills
/// its place when the used places are put over the list.
pub fn change(list: &mut [u32], before: &Facade, step: Step, after: &Facade, outcome: Outcome) {
    match step {
        Step::Deliver { position, keep } => {
            if !keep {
                empty_last(list, before);
            }
            if let Some((server, address)) = changed_write(before, position, after, outcome) {
                put(list, places::acknowledged(server, address, 0), [0; SERVERS]);
            }
        }
        Step::Lose { .. } => empty_last(list, before),
        Step::Return { server } => reset_server(list, server, before.time),
        _ => {}
    }
}

/// A removal empties the last waiting place.
fn empty_last(list: &mut [u32], before: &Facade) {
    let last = before.waiting.len() - 1;
    put(list, places::message(last), [0; MESSAGE]);
}

/// Where the delivered message opened or closed a write. An opened one is
/// acknowledged by its own server only and a closed one by none, so all four
/// flags are cleared; that server's own comes with the used places.
fn changed_write(
    before: &Facade,
    position: usize,
    after: &Facade,
    outcome: Outcome,
) -> Option<(usize, usize)> {
    if outcome != Outcome::Done {
        return None;
    }
    let message = before.waiting[position];
    match message.body {
        Body::Request { address, .. } | Body::Renew { address, .. } => Some((message.to, address)),
        Body::WriteAck { address, .. } => {
            let closed = after.servers[message.to].entries[address].write.is_none();
            closed.then_some((message.to, address))
        }
        _ => None,
    }
}

/// A return resets all 32 places of led, reservations, lent ends and writes,
/// all four of the believed set, and its whole row of notice times. Records
/// survive.
fn reset_server(list: &mut [u32], server: usize, now: Tick) {
    put(list, places::believed(server, 0), [1; SERVERS]);
    put(list, places::notice_time(server, 0), [now as u32; SERVERS]);
    put(list, places::led(server, 0), [0; ADDRESSES]);
    put(list, places::lent_end(server, 0), [0; ADDRESSES]);
    put(list, places::reservation(server, 0), [0; ADDRESSES * places::RESERVATION]);
    put(list, places::write(server, 0), [0; ADDRESSES * WRITE]);
}
