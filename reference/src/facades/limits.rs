//! The ranges of the used numbers of a facade, each with its place in the
//! flat list. Written from document 01 apart from `range.rs`.

use crate::configuration::RANGES;
use crate::facade::{AddressEntry, Client, Facade};
use crate::flat::{from_numbers, places};
use crate::message::{Body, Message};

const LAST_TIME: i64 = 1_000_000_000;
const LARGEST_READING: i64 = 1_000_001_000;
const LARGEST_END: i64 = 2_000_000_000;
const LARGEST_NEXT: i64 = 1_000_001;

/// A number may be from least to largest as long as the others stay.
#[derive(Clone, Copy, Debug)]
pub struct Limit {
    /// What number it is; several places have the same.
    pub sort: (&'static str, usize),
    pub place: usize,
    pub least: i64,
    pub largest: i64,
}

pub struct Limits<'a> {
    facade: &'a Facade,
    limits: Vec<Limit>,
}

/// The limits of a facade in range.
pub fn limits(facade: &Facade) -> Vec<Limit> {
    let mut found = Limits { facade, limits: Vec::new() };
    found.add_servers();
    found.add_clients();
    found.add_messages();
    found.add_times();
    found.add_counts();
    found.limits
}

/// The sort of a number that is outside its range, if the list codes a facade
/// that has one.
pub fn outside(list: &[u32]) -> Option<(&'static str, usize)> {
    let coded = from_numbers(list)?;
    let mut configuration = coded.configuration.numbers().into_iter().zip(RANGES).enumerate();
    let wrong = configuration.find(|(_, (number, (least, most)))| number < least || number > most);
    if let Some((index, _)) = wrong {
        return Some(("configuration", index));
    }
    let Ok(facade) = coded.facade() else {
        return Some(("waiting count", 0));
    };
    let is_wrong = |limit: &&Limit| {
        let number = list[limit.place];
        let signed = limit.sort.0 == "offset";
        let number = if signed { i64::from(number as i32) } else { i64::from(number) };
        !(limit.least..=limit.largest).contains(&number)
    };
    limits(&facade).iter().find(is_wrong).map(|limit| limit.sort)
}

impl Limits<'_> {
    fn add(&mut self, sort: (&'static str, usize), place: usize, least: i64, largest: i64) {
        self.limits.push(Limit { sort, place, least, largest });
    }

    fn add_interaction(&mut self, sort: (&'static str, usize), place: usize) {
        self.add(sort, place, 1, i64::from(self.facade.next_interaction) - 1);
    }

    fn add_address(&mut self, sort: (&'static str, usize), place: usize) {
        self.add(sort, place, 0, i64::from(self.facade.configuration.addresses) - 1);
    }

    fn add_end(&mut self, sort: (&'static str, usize), place: usize) {
        self.add(sort, place, 0, LARGEST_END);
    }

    fn add_servers(&mut self) {
        let time = self.facade.time;
        let count = self.facade.servers.len();
        for (server, state) in self.facade.servers.iter().enumerate() {
            self.add(("changed", state.alive.into()), places::changed(server), 0, time);
            let reading = places::return_reading(server);
            self.add(("return reading", state.alive.into()), reading, 0, LARGEST_READING);
            for (address, entry) in state.entries.iter().enumerate() {
                self.add_entry(server, address, entry);
            }
            for about in (0..count).filter(|&about| about != server) {
                self.add(("notice time", 0), places::notice_time(server, about), 0, time);
            }
        }
    }

    fn add_entry(&mut self, server: usize, address: usize, entry: &AddressEntry) {
        self.add_end(("lent end", 0), places::lent_end(server, address));
        self.add_end(("record", 0), places::record(server, address));
        if entry.reservation.is_some() {
            let place = places::reservation(server, address);
            self.add_interaction(("reservation", 1), place + 1);
            self.add(("reservation", 2), place + 2, 0, LARGEST_READING);
        }
        if entry.write.is_some() {
            let place = places::write(server, address);
            self.add_interaction(("write", 1), place + 1);
            self.add_end(("write", 2), place + 2);
        }
    }

    fn add_clients(&mut self) {
        for (client, state) in self.facade.clients.iter().enumerate() {
            let place = places::client(client);
            match state {
                Client::Idle => {}
                Client::Asking { .. } => self.add_interaction(("asking", 1), place + 1),
                Client::Offered { .. } => {
                    self.add_interaction(("offered", 1), place + 1);
                    self.add_address(("offered", 2), place + 2);
                }
                Client::Waiting { .. } => {
                    self.add_interaction(("waiting", 1), place + 1);
                    self.add_address(("waiting", 2), place + 2);
                }
                Client::Holding { .. } => {
                    self.add_address(("holding", 1), place + 1);
                    self.add_end(("holding", 2), place + 2);
                    self.add_interaction(("holding", 3), place + 3);
                }
            }
        }
    }

    fn add_messages(&mut self) {
        for (position, message) in self.facade.waiting.iter().enumerate() {
            let kind = message.body.index();
            let place = places::message(position);
            self.add_parties(message, place);
            self.add_interaction(("message κ", kind), place + 2);
            if !matches!(message.body, Body::Discover { .. }) {
                self.add_address(("message address", kind), place + 4);
            }
            if !matches!(message.body, Body::Discover { .. } | Body::Offer { .. }) {
                self.add_end(("message end", kind), place + 5);
            }
            if matches!(message.body, Body::Renew { .. }) {
                self.add_end(("message τ", kind), place + 6);
            }
        }
    }

    fn add_parties(&mut self, message: &Message, place: usize) {
        let kind = message.body.index();
        let servers = self.facade.servers.len() as i64;
        let parties = servers + self.facade.clients.len() as i64;
        let [server, client] = [(0, servers - 1), (servers, parties - 1)];
        let (sender, receiver) = match message.body {
            Body::Discover { .. } | Body::Request { .. } | Body::Renew { .. } => (client, server),
            Body::Offer { .. } | Body::Ack { .. } => (server, client),
            Body::Write { .. } | Body::WriteAck { .. } => (server, server),
        };
        self.add(("sender", kind), place, sender.0, sender.1);
        self.add(("receiver", kind), place + 1, receiver.0, receiver.1);
    }

    /// True time, and by how much clocks are ahead.
    fn add_times(&mut self) {
        let time = self.facade.time;
        let skew = self.facade.skew();
        for party in 0..self.facade.offsets.len() {
            let sort = ("offset", usize::from(party < self.facade.servers.len()));
            self.add(sort, places::offset(party), (-skew).max(-time), skew);
        }
        let changes = self.facade.servers.iter().map(|server| server.changed);
        let notices = self.facade.notice_times.iter().flatten().copied();
        let behind = self.facade.offsets.iter().map(|offset| -offset);
        let least = changes.chain(notices).chain(behind).max().unwrap_or(0);
        self.add(("time", 0), places::TIME, least.max(0), LAST_TIME);
    }

    /// The configuration, the next interaction and how many messages wait.
    fn add_counts(&mut self) {
        for (index, (least, largest)) in RANGES.into_iter().enumerate() {
            let place = places::CONFIGURATION + index;
            self.add(("configuration", index), place, least.into(), largest.into());
        }
        let furthest = self.facade.offsets.iter().map(|offset| offset.abs()).max();
        let place = places::CONFIGURATION + 3;
        self.add(("Δ and offsets", 0), place, furthest.unwrap_or(0), 1_000);
        let place = places::CONFIGURATION + 2;
        self.add(("A and addresses", 0), place, addresses_named(self.facade), 32);
        let used = last_interaction(self.facade);
        self.add(("next κ", 0), places::NEXT_INTERACTION, used + 1, LARGEST_NEXT);
        let waiting = self.facade.waiting.len() as i64;
        self.add(("waiting count", 0), places::WAITING, 0, 128);
        self.add(("waiting messages", 0), places::WAITING, 0, waiting);
    }
}

/// The largest κ that is stored, 0 if none is.
fn last_interaction(facade: &Facade) -> i64 {
    let entries = facade.servers.iter().flat_map(|server| &server.entries);
    let stored = entries.flat_map(|entry| {
        let reserved = entry.reservation.map(|reservation| reservation.interaction);
        [reserved, entry.write.map(|write| write.interaction)]
    });
    let clients = facade.clients.iter().map(|client| match *client {
        Client::Idle => None,
        Client::Asking { interaction }
        | Client::Offered { interaction, .. }
        | Client::Waiting { interaction, .. }
        | Client::Holding { interaction, .. } => Some(interaction),
    });
    let messages = facade.waiting.iter().map(|message| Some(message.body.interaction()));
    stored.chain(clients).chain(messages).flatten().max().unwrap_or(0).into()
}

/// How many addresses there must be for those that clients and messages name.
fn addresses_named(facade: &Facade) -> i64 {
    let clients = facade.clients.iter().map(|client| match *client {
        Client::Idle | Client::Asking { .. } => None,
        Client::Offered { address, .. }
        | Client::Waiting { address, .. }
        | Client::Holding { address, .. } => Some(address),
    });
    let messages = facade.waiting.iter().map(|message| message.body.address());
    clients.chain(messages).flatten().max().map_or(1, |address| address as i64 + 1)
}
