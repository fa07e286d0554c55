//! Facades in range that no list of steps reaches, with a step that looks at
//! what is odd about them.

use super::frame::Frame;
use super::paint::{paint, Painter};
use super::plant::{self, plantable};
use super::{ground, steps};
use crate::facade::{Client, Facade, Reservation, ServerSet, LARGEST_READING};
use crate::flat::to_numbers;
use crate::message::{Body, Message};
use crate::random::Random;
use crate::step::Step;

pub fn make(random: &mut Random) -> (Vec<u32>, [u32; 4]) {
    let mut frame = plantable(Frame::any(random));
    frame.configuration.clients = frame.configuration.clients.max(2);
    let mut facade = paint(random, &frame);
    let odd = [
        two_leaders,
        two_holders,
        doubting_itself,
        counted_wrongly,
        reading_above_clock,
        reserved_above_clock,
        writing_to_itself,
        held_too_long,
        dead_leader,
        all_dead,
    ];
    let step = random.pick(&odd)(random, &mut facade);
    (to_numbers(&facade, &ground::any(random)), steps::numbers(step))
}

/// A message of that type that is taken.
fn deliver(random: &mut Random, facade: &mut Facade, kinds: &[usize]) -> Step {
    let position = random.below(facade.waiting.len());
    let kind = random.pick(kinds);
    Painter { random: &mut *random, facade }.plant(position, kind);
    Step::Deliver { position, keep: random.chance(400) }
}

fn some_address(random: &mut Random, facade: &Facade) -> usize {
    random.below(facade.configuration.addresses as usize)
}

fn notice_to(random: &mut Random, facade: &mut Facade, server: usize) -> Step {
    facade.servers[server].alive = true;
    steps::notice_to(random, facade, server)
}

/// All servers lead all addresses.
fn two_leaders(random: &mut Random, facade: &mut Facade) -> Step {
    for server in &mut facade.servers {
        server.alive = true;
        server.entries.iter_mut().for_each(|entry| entry.leads = true);
    }
    if random.chance(300) {
        let server = random.below(facade.servers.len());
        return notice_to(random, facade, server);
    }
    deliver(random, facade, &[plant::DISCOVER, plant::REQUEST, plant::RENEW, plant::WRITE_ACK])
}

/// All clients hold one address.
fn two_holders(random: &mut Random, facade: &mut Facade) -> Step {
    let address = some_address(random, facade);
    for client in 0..facade.clients.len() {
        let party = facade.client_party(client);
        let end = Painter { random: &mut *random, facade }.end(party);
        facade.clients[client] = Client::Holding { address, end, interaction: 1 };
    }
    match random.below(3) {
        0 => steps::pass(random, facade),
        1 => deliver(random, facade, &[plant::ACK]),
        _ => {
            let wanted = facade.time + random.between(0, 100);
            Step::Renew { client: random.below(facade.clients.len()), wanted }
        }
    }
}

/// A server that is not in its own set, or with an empty one.
fn doubting_itself(random: &mut Random, facade: &mut Facade) -> Step {
    let server = random.below(facade.servers.len());
    let believed = &mut facade.servers[server].believed_live;
    believed.remove(server);
    if random.chance(300) {
        *believed = ServerSet(0);
    }
    notice_to(random, facade, server)
}

/// An open write that all have acknowledged, or none.
fn counted_wrongly(random: &mut Random, facade: &mut Facade) -> Step {
    let step = deliver(random, facade, &[plant::WRITE_ACK]);
    let all = ServerSet::all(facade.servers.len());
    let set = if random.chance(600) { all } else { ServerSet(0) };
    let entries = facade.servers.iter_mut().flat_map(|server| &mut server.entries);
    for write in entries.filter_map(|entry| entry.write.as_mut()) {
        write.acknowledged = set;
    }
    step
}

/// A server that returned later than now.
fn reading_above_clock(random: &mut Random, facade: &mut Facade) -> Step {
    let server = random.below(facade.servers.len());
    let clock = facade.clock(server);
    let any = random.between(clock, LARGEST_READING);
    facade.servers[server].return_reading = random.pick(&[clock, clock + 1, any, LARGEST_READING]);
    notice_to(random, facade, server)
}

/// Reservations later than now.
fn reserved_above_clock(random: &mut Random, facade: &mut Facade) -> Step {
    let server = random.below(facade.servers.len());
    let clock = facade.clock(server);
    for entry in &mut facade.servers[server].entries {
        let any = random.between(clock, LARGEST_READING);
        let reading = random.pick(&[clock, clock + 1, any, LARGEST_READING]);
        let reading = reading.min(LARGEST_READING);
        entry.reservation = Some(Reservation { interaction: 1, reading });
    }
    facade.servers[server].alive = true;
    Step::Cleanup { server }
}

fn writing_to_itself(random: &mut Random, facade: &mut Facade) -> Step {
    let step = deliver(random, facade, &[plant::WRITE, plant::WRITE_ACK]);
    for message in &mut facade.waiting {
        if matches!(message.body, Body::Write { .. } | Body::WriteAck { .. }) {
            message.from = message.to;
        }
    }
    step
}

/// Clients that hold ends which their clocks have passed.
fn held_too_long(random: &mut Random, facade: &mut Facade) -> Step {
    let address = some_address(random, facade);
    for client in 0..facade.clients.len() {
        let clock = facade.clock(facade.client_party(client));
        let end = random.pick(&[0, clock - 1, clock]).max(0);
        facade.clients[client] = Client::Holding { address, end, interaction: 1 };
    }
    let client = random.below(facade.clients.len());
    match random.below(4) {
        0 => Step::Renew { client, wanted: 0 },
        1 => Step::Discover { client },
        2 => {
            let position = random.below(facade.waiting.len());
            let to = facade.client_party(client);
            let end = facade.clock(to) + random.pick(&[0, 1, 50]);
            let body = Body::Ack { interaction: 1, address, end };
            facade.waiting[position] = Message { from: 0, to, body };
            Step::Deliver { position, keep: random.chance(400) }
        }
        _ => steps::pass(random, facade),
    }
}

/// What a dead server leads is looked at by nobody.
fn dead_leader(random: &mut Random, facade: &mut Facade) -> Step {
    let kinds = [plant::DISCOVER, plant::REQUEST, plant::RENEW, plant::WRITE, plant::WRITE_ACK];
    let step = deliver(random, facade, &kinds);
    let Step::Deliver { position, .. } = step else {
        return step;
    };
    let server = facade.waiting[position].to;
    facade.servers[server].alive = false;
    if random.chance(500) {
        Step::Return { server }
    } else {
        step
    }
}

/// No live server lacks a notice, so time may pass as far as one step can.
fn all_dead(random: &mut Random, facade: &mut Facade) -> Step {
    facade.servers.iter_mut().for_each(|server| server.alive = false);
    if random.chance(300) {
        return Step::Return { server: random.below(facade.servers.len()) };
    }
    steps::pass(random, facade)
}
