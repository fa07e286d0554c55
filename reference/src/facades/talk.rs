//! Messages for painted facades, mostly such that their conditions may hold.

use super::paint::Painter;
use crate::facade::{Client, OpenWrite, Tick};
use crate::message::{Body, Message, TYPES};
use crate::step::LARGEST_END;

impl Painter<'_> {
    /// Some interaction must be used already.
    pub fn message(&mut self) -> Message {
        match self.random.below(TYPES.len()) {
            0 => self.discover(),
            1 => self.request(),
            2 => self.renew(),
            3 => self.offer(),
            4 => self.ack(),
            5 => self.write_message(),
            _ => self.write_ack(),
        }
    }

    fn known_interaction(&mut self) -> u32 {
        self.interaction().expect("an interaction is used")
    }

    fn some_server(&mut self) -> usize {
        self.random.below(self.facade.servers.len())
    }

    fn some_client(&mut self) -> usize {
        self.random.below(self.facade.clients.len())
    }

    fn some_client_party(&mut self) -> usize {
        let client = self.some_client();
        self.facade.client_party(client)
    }

    fn discover(&mut self) -> Message {
        let body = Body::Discover { interaction: self.known_interaction() };
        Message { from: self.some_client_party(), to: self.some_server(), body }
    }

    fn request(&mut self) -> Message {
        let (to, address) = self.led_place();
        let mut interaction = self.known_interaction();
        let entries = &self.facade.servers[to].entries;
        if let Some(held) = entries[address].reservation.filter(|_| self.random.chance(500)) {
            interaction = held.interaction;
        }
        let wanted = self.wanted(to);
        let body = Body::Request { interaction, address, wanted };
        Message { from: self.some_client_party(), to, body }
    }

    fn renew(&mut self) -> Message {
        let (to, address) = self.led_place();
        let clock = self.facade.clock(to);
        let later = clock + self.random.between(0, 300);
        let old_end = self.near(&[clock, clock, later], LARGEST_END.into());
        let interaction = self.known_interaction();
        let body = Body::Renew { interaction, address, old_end, wanted: self.wanted(to) };
        Message { from: self.some_client_party(), to, body }
    }

    /// A τ.
    pub fn wanted(&mut self, server: usize) -> Tick {
        let lent = self.facade.clock(server) + self.facade.mclt();
        let later = lent + self.random.between(0, 300);
        self.near(&[0, lent, later, later], LARGEST_END.into())
    }

    /// A server and an address, mostly one that it leads.
    fn led_place(&mut self) -> (usize, usize) {
        let mut place = (self.some_server(), self.address());
        for _ in 0..4 {
            let state = &self.facade.servers[place.0];
            if state.alive && state.entries[place.1].leads {
                break;
            }
            place = (self.some_server(), self.address());
        }
        place
    }

    fn offer(&mut self) -> Message {
        let client = self.some_client();
        let mut interaction = self.known_interaction();
        if let Client::Asking { interaction: own } = self.facade.clients[client] {
            interaction = if self.random.chance(850) { own } else { interaction };
        }
        let body = Body::Offer { interaction, address: self.address() };
        Message { from: self.some_server(), to: self.facade.client_party(client), body }
    }

    /// With that interaction and address, or now and then with others.
    fn ack(&mut self) -> Message {
        let client = self.some_client();
        let to = self.facade.client_party(client);
        let mut interaction = self.known_interaction();
        let mut address = self.address();
        match self.facade.clients[client] {
            Client::Offered { interaction: own, address: place }
            | Client::Waiting { interaction: own, address: place }
            | Client::Holding { interaction: own, address: place, .. } => {
                interaction = if self.random.chance(900) { own } else { interaction };
                address = if self.random.chance(900) { place } else { address };
            }
            _ => {}
        }
        let body = Body::Ack { interaction, address, end: self.end(to) };
        Message { from: self.some_server(), to, body }
    }

    /// Also to the sender itself.
    fn write_message(&mut self) -> Message {
        let to = self.some_server();
        let address = self.address();
        let record = self.facade.servers[to].entries[address].record;
        let end = self.near(&[record], LARGEST_END.into());
        let body = Body::Write { interaction: self.known_interaction(), address, end };
        Message { from: self.some_server(), to, body }
    }

    /// For the open write, or now and then with another κ or end.
    fn write_ack(&mut self) -> Message {
        let (to, address) = self.led_place();
        let mut interaction = self.known_interaction();
        let mut end = self.end(to);
        if let Some(write) = self.facade.servers[to].entries[address].write {
            let OpenWrite { interaction: own, end: written, .. } = write;
            interaction = if self.random.chance(900) { own } else { interaction };
            let beside = self.near(&[written], LARGEST_END.into());
            end = if self.random.chance(850) { written } else { beside };
        }
        let body = Body::WriteAck { interaction, address, end };
        Message { from: self.some_server(), to, body }
    }
}
