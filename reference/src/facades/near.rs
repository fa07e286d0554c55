//! Steps whose conditions just hold or just fail.

use super::frame::Frame;
use super::paint::{paint, Painter};
use super::plant::plantable;
use super::{ground, steps};
use crate::facade::{AddressEntry, Client, Facade, Reservation, ServerSet, Tick};
use crate::flat::to_numbers;
use crate::message::{Body, Message, TYPES};
use crate::random::Random;
use crate::step::Step;

pub fn make(random: &mut Random) -> (Vec<u32>, [u32; 4]) {
    let mut frame = plantable(Frame::any(random));
    // So that there are other addresses and interactions.
    frame.configuration.addresses = frame.configuration.addresses.max(2);
    frame.next_interaction = frame.next_interaction.max(3);
    frame.recent = true;
    let (facade, step) = match random.weighted(&[60, 16, 14, 10]) {
        0 => message(random, frame),
        1 => leading(random, frame),
        2 => ending(random, frame),
        _ => cleanup(random, frame),
    };
    (to_numbers(&facade, &ground::any(random)), steps::numbers(step))
}

/// A message that is taken, but for one condition of those it has.
fn message(random: &mut Random, frame: Frame) -> (Facade, Step) {
    let mut facade = paint(random, &frame);
    let position = random.below(frame.waiting);
    let kind = random.below(TYPES.len());
    Painter { random: &mut *random, facade: &mut facade }.plant(position, kind);
    let message = facade.waiting[position];
    match message.body {
        _ if random.chance(300) => {}
        Body::Offer { .. } | Body::Ack { .. } => spoil_for_client(random, &mut facade, position),
        _ if random.chance(120) => facade.servers[message.to].alive = false,
        _ => spoil_for_server(random, &mut facade, position),
    }
    (facade, Step::Deliver { position, keep: random.chance(500) })
}

/// Another interaction or address than the message has.
fn spoil_name(random: &mut Random, facade: &mut Facade, position: usize) {
    let next = facade.next_interaction;
    let addresses = facade.configuration.addresses as usize;
    let other_address = random.chance(500);
    let change = |interaction: &mut u32, address: &mut usize| {
        if other_address {
            *address = (*address + 1) % addresses;
        } else {
            *interaction = if *interaction == 1 { next - 1 } else { *interaction - 1 };
        }
    };
    match &mut facade.waiting[position].body {
        Body::Offer { interaction, address }
        | Body::Ack { interaction, address, .. }
        | Body::WriteAck { interaction, address, .. } => change(interaction, address),
        _ => {}
    }
}

fn spoil_for_client(random: &mut Random, facade: &mut Facade, position: usize) {
    let Message { to, body, .. } = facade.waiting[position];
    let clock = facade.clock(to);
    let client = to - facade.servers.len();
    let interaction = body.interaction();
    let address = body.address().unwrap_or(0);
    let wrong = match body {
        Body::Offer { .. } => Client::Waiting { interaction, address },
        _ => Client::Asking { interaction },
    };
    match random.below(4) {
        0 => {
            let offered = Client::Offered { interaction, address };
            facade.clients[client] = random.pick(&[wrong, offered, Client::Idle]);
        }
        1 => {
            if let Body::Ack { end, .. } = &mut facade.waiting[position].body {
                *end = clock;
            }
        }
        _ => spoil_name(random, facade, position),
    }
}

fn spoil_for_server(random: &mut Random, facade: &mut Facade, position: usize) {
    let Message { to, body, .. } = facade.waiting[position];
    let clock = facade.clock(to);
    let latest = clock - 2 * facade.skew();
    let entries = &mut facade.servers[to].entries;
    match body {
        // The lowest address that is free counts, so none may be.
        Body::Discover { .. } => {
            entries.iter_mut().for_each(|entry| spoil_entry(random, entry, latest));
        }
        Body::Request { address, .. } if random.chance(600) => entries[address].record = latest,
        Body::Renew { .. } if random.chance(600) => {
            if let Body::Renew { old_end, .. } = &mut facade.waiting[position].body {
                *old_end = clock - 1;
            }
        }
        Body::Request { address, .. } | Body::Renew { address, .. } => {
            entries[address].leads = false;
        }
        Body::WriteAck { address, .. } => match random.below(5) {
            0 => entries[address].leads = false,
            1 => entries[address].write = None,
            2 => {
                if let Some(write) = &mut entries[address].write {
                    write.end = if write.end == 0 { 1 } else { write.end - 1 };
                }
            }
            _ => spoil_name(random, facade, position),
        },
        _ => {}
    }
}

fn spoil_entry(random: &mut Random, entry: &mut AddressEntry, latest: Tick) {
    match random.below(3) {
        0 => entry.leads = false,
        1 => entry.reservation = Some(Reservation { interaction: 1, reading: latest }),
        _ => entry.record = latest,
    }
}

/// A notice to a server that has returned 2ν + 2Δ ago, or a tick less.
fn leading(random: &mut Random, mut frame: Frame) -> (Facade, Step) {
    let wait = 2 * frame.detection() + 2 * frame.skew();
    frame.time = frame.time.max(wait + frame.skew());
    let mut facade = paint(random, &frame);
    let server = random.below(facade.servers.len());
    let clock = facade.clock(server);
    let begun = clock + facade.mclt() + 2 * facade.skew();
    let all = ServerSet::all(facade.servers.len());
    let state = &mut facade.servers[server];
    state.alive = true;
    state.return_reading = (clock - wait + random.pick(&[0, 0, 1, 1, -1])).max(0);
    state.believed_live = random.pick(&[all, ServerSet::only(server), state.believed_live]);
    for entry in &mut state.entries {
        entry.leads = random.chance(250);
        entry.record = random.pick(&[entry.record, begun - 1, begun, begun + 1]);
    }
    let step = steps::notice_to(random, &facade, server);
    (facade, step)
}

/// A pass after which clients' clocks read their ends, or a tick less.
fn ending(random: &mut Random, frame: Frame) -> (Facade, Step) {
    let mut facade = paint(random, &frame);
    let step = steps::pass(random, &facade);
    let Step::Pass { d, party, e } = step else {
        return (facade, step);
    };
    for client in 0..facade.clients.len() {
        let own = facade.client_party(client);
        let reading = facade.clock(own) + d + if own == party { e } else { 0 };
        if random.chance(700) {
            let end = (reading + random.pick(&[-1, 0, 0, 1, 1])).max(0);
            facade.clients[client] = Client::Holding { address: 0, end, interaction: 1 };
        }
    }
    (facade, step)
}

/// Reservations just to be kept or dropped.
fn cleanup(random: &mut Random, frame: Frame) -> (Facade, Step) {
    let mut facade = paint(random, &frame);
    let server = random.below(facade.servers.len());
    let kept = facade.clock(server) - facade.retention();
    let state = &mut facade.servers[server];
    state.alive = true;
    for entry in &mut state.entries {
        let reading = (kept + random.pick(&[-1, 0, 0, 1])).max(0);
        entry.reservation = Some(Reservation { interaction: 1, reading });
    }
    (facade, Step::Cleanup { server })
}
