//! Steps of clients and messages that break given rules.

use super::frame::Frame;
use super::paint::{paint, Painter};
use super::plant::{self, plantable};
use super::rules::{bad_flag, beyond, Rules};
use crate::facade::{Client, Facade, LAST_INTERACTION, MOST_WAITING};
use crate::random::Random;

/// A discover, request or renew.
pub fn client_step(random: &mut Random, kind: u32, rules: Rules) -> (Facade, [u32; 4]) {
    let mut frame = Frame::any(random).with_interactions();
    frame.next_interaction = if rules.has(12) {
        LAST_INTERACTION + 1
    } else {
        random.pick(&[LAST_INTERACTION, frame.next_interaction.min(LAST_INTERACTION)])
    };
    let room = MOST_WAITING - frame.servers();
    frame.waiting = if rules.has(13) {
        let inside = random.between(room as i64 + 1, MOST_WAITING as i64) as usize;
        random.pick(&[room + 1, inside])
    } else {
        let below = frame.waiting.min(room);
        random.pick(&[room, below, below])
    };
    let mut facade = paint(random, &frame);
    let client = random.below(facade.clients.len());
    facade.clients[client] = state(random, &mut facade, client, kind, rules.has(7));
    let named = if rules.has(6) { beyond(random, frame.clients()) } else { client as u32 };
    let wanted = if rules.has(5) {
        random.pick(&[2_000_000_001, 1 << 31, u32::MAX])
    } else {
        random.pick(&[0, 1, facade.time as u32, 2_000_000_000])
    };
    let last = if kind == 5 { 0 } else { wanted };
    (facade, [kind, named, last, 0])
}

/// A state in which the client may take the step, or may not.
fn state(
    random: &mut Random,
    facade: &mut Facade,
    client: usize,
    kind: u32,
    wrong: bool,
) -> Client {
    let mut painter = Painter { random: &mut *random, facade };
    let interaction = painter.interaction().expect("an interaction is used");
    let address = painter.address();
    let end = painter.end(painter.facade.client_party(client));
    let offered = Client::Offered { interaction, address };
    let holding = Client::Holding { address, end, interaction };
    let waiting = Client::Waiting { interaction, address };
    let others = [Client::Idle, Client::Asking { interaction }, waiting];
    match (kind, wrong) {
        (5, true) | (7, false) => holding,
        (6, false) => offered,
        (6, true) => random.pick(&[others[0], others[1], waiting, holding]),
        _ => random.pick(&[others[0], others[1], waiting, offered]),
    }
}

pub fn deliver(random: &mut Random, rules: Rules) -> (Facade, [u32; 4]) {
    let mut frame = plantable(Frame::any(random));
    let servers = frame.servers();
    let kinds = [plant::DISCOVER, plant::REQUEST, plant::RENEW, plant::WRITE];
    let kind = random.pick(&kinds);
    let sent = plant::sent(kind, servers);
    // One message cannot be too many where one is taken out.
    let keep = sent == 1 && rules.has(13) || random.chance(500);
    if rules.has(13) {
        let least = MOST_WAITING - sent + if keep { 1 } else { 2 };
        frame.waiting = random.between(least as i64, MOST_WAITING as i64) as usize;
    } else {
        frame.waiting = frame.waiting.min(MOST_WAITING - servers);
    }
    let mut facade = paint(random, &frame);
    let mut position = random.below(frame.waiting);
    if rules.has(13) {
        Painter { random: &mut *random, facade: &mut facade }.plant(position, kind);
    }
    if rules.has(6) {
        position = beyond(random, frame.waiting) as usize;
    }
    let keep = if rules.has(5) { bad_flag(random, keep.into()) } else { keep.into() };
    (facade, [8, position as u32, keep, 0])
}

pub fn lose(random: &mut Random, rules: Rules) -> (Facade, [u32; 4]) {
    let frame = plantable(Frame::any(random));
    let facade = paint(random, &frame);
    let position = random.below(frame.waiting);
    let named = if rules.has(6) { beyond(random, frame.waiting) } else { position as u32 };
    (facade, [9, named, 0, 0])
}
