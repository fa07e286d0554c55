//! Lengths of a pass that bring some clock just before, onto or just past a
//! reading at which a rule changes its answer.

use crate::facade::{Client, Facade, Tick};
use crate::message::Body;

/// Lengths from 1 to the limit, for a pass that moves one party's offset
/// by e.
pub fn edge_lengths(facade: &Facade, limit: Tick, party: usize, e: Tick) -> Vec<Tick> {
    let mut edges = Edges { facade, limit, party, e, lengths: Vec::new() };
    for server in 0..facade.servers.len() {
        edges.add_server(server);
    }
    for client in 0..facade.clients.len() {
        edges.add_client(client);
    }
    edges.add_messages();
    edges.lengths
}

struct Edges<'a> {
    facade: &'a Facade,
    limit: Tick,
    party: usize,
    e: Tick,
    lengths: Vec<Tick>,
}

impl Edges<'_> {
    /// Passes after which the party's clock shows the reading or the next.
    fn add(&mut self, party: usize, reading: Tick) {
        let moved = if party == self.party { self.e } else { 0 };
        let length = reading - self.facade.clock(party) - moved;
        self.add_length(length);
        self.add_length(length + 1);
    }

    fn add_length(&mut self, length: Tick) {
        if (1..=self.limit).contains(&length) {
            self.lengths.push(length);
        }
    }

    fn add_server(&mut self, server: usize) {
        let facade = self.facade;
        let state = &facade.servers[server];
        // Refusal 11 changes ν after c.
        let settled = state.changed + facade.detection() - facade.time;
        self.add_length(settled - 1);
        self.add_length(settled);
        if !state.alive {
            return;
        }
        let margin = 2 * facade.skew();
        let wait = 2 * facade.detection() + margin;
        self.add(server, state.return_reading + wait - 1);
        for entry in &state.entries {
            if entry.leads {
                self.add(server, entry.record + margin);
            }
            if let Some(held) = entry.reservation {
                self.add(server, held.reading + facade.retention());
            }
        }
    }

    fn add_client(&mut self, client: usize) {
        if let Client::Holding { end, .. } = self.facade.clients[client] {
            self.add(self.facade.client_party(client), end - 1);
        }
    }

    fn add_messages(&mut self) {
        for message in &self.facade.waiting {
            match message.body {
                Body::Ack { end, .. } => self.add(message.to, end - 1),
                Body::Renew { old_end, .. } => self.add(message.to, old_end),
                _ => {}
            }
        }
    }
}
