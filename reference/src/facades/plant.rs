//! Messages whose conditions are made to hold.

use super::frame::Frame;
use super::paint::Painter;
use crate::facade::{Client, OpenWrite, ServerSet, Tick};
use crate::message::{Body, Message};

/// Where the types stand in `TYPES`.
pub const DISCOVER: usize = 0;
pub const REQUEST: usize = 1;
pub const RENEW: usize = 2;
pub const OFFER: usize = 3;
pub const ACK: usize = 4;
pub const WRITE: usize = 5;
pub const WRITE_ACK: usize = 6;

/// How many messages one of that type sends where its condition holds.
pub fn sent(kind: usize, servers: usize) -> usize {
    match kind {
        DISCOVER | WRITE => 1,
        REQUEST | RENEW => servers,
        _ => 0,
    }
}

/// A frame in which any message can be planted.
pub fn plantable(frame: Frame) -> Frame {
    let mut frame = frame.at_lendable_time().with_interactions();
    frame.waiting = frame.waiting.max(1);
    frame
}

impl Painter<'_> {
    /// Puts a message of that type at the position and changes its receiver
    /// so that the message is taken.
    pub fn plant(&mut self, position: usize, kind: usize) {
        let message = match kind {
            OFFER | ACK => self.plant_for_client(kind),
            _ => self.plant_for_server(kind),
        };
        self.facade.waiting[position] = message;
    }

    fn plant_for_client(&mut self, kind: usize) -> Message {
        let client = self.random.below(self.facade.clients.len());
        let to = self.facade.client_party(client);
        let interaction = self.interaction().expect("an interaction is used");
        let address = self.address();
        let (state, body) = if kind == OFFER {
            (Client::Asking { interaction }, Body::Offer { interaction, address })
        } else {
            let end = self.facade.clock(to) + self.random.pick(&[1, 1, 2, 100]);
            let waiting = Client::Waiting { interaction, address };
            // The later of the two ends is kept, so they are often the same
            // or a tick apart.
            let any = self.end(to);
            let own_end = self.random.pick(&[any, any, end - 1, end, end + 1, end + 100]);
            let holding = Client::Holding { address, end: own_end, interaction };
            let state = self.random.pick(&[waiting, holding]);
            (state, Body::Ack { interaction, address, end })
        };
        self.facade.clients[client] = state;
        Message { from: self.random.below(self.facade.servers.len()), to, body }
    }

    fn plant_for_server(&mut self, kind: usize) -> Message {
        let to = self.random.below(self.facade.servers.len());
        let address = self.address();
        self.facade.servers[to].alive = true;
        let body = self.plant_body(kind, to, address);
        let from = if kind == WRITE || kind == WRITE_ACK {
            self.random.below(self.facade.servers.len())
        } else {
            self.facade.client_party(self.random.below(self.facade.clients.len()))
        };
        Message { from, to, body }
    }

    /// Changes what the server has for the address, if it must be changed.
    fn plant_body(&mut self, kind: usize, server: usize, address: usize) -> Body {
        let interaction = self.interaction().expect("an interaction is used");
        let wanted = self.wanted(server);
        let end = self.end(server);
        let past = self.past_record(server);
        let acknowledged = self.nearly_all();
        let old_end = self.facade.clock(server) + self.random.pick(&[0, 0, 1, 100]);
        let entry = &mut self.facade.servers[server].entries[address];
        entry.leads |= kind != WRITE;
        match kind {
            DISCOVER => {
                entry.reservation = None;
                entry.record = past;
                Body::Discover { interaction }
            }
            REQUEST => {
                entry.record = past;
                Body::Request { interaction, address, wanted }
            }
            RENEW => Body::Renew { interaction, address, old_end, wanted },
            WRITE => Body::Write { interaction, address, end },
            _ => {
                entry.write = Some(OpenWrite { interaction, end, acknowledged });
                Body::WriteAck { interaction, address, end }
            }
        }
    }

    /// A record that the clock has passed by more than 2Δ.
    fn past_record(&mut self, server: usize) -> Tick {
        let latest = self.facade.clock(server) - 2 * self.facade.skew() - 1;
        let any = self.random.between(0, latest);
        self.random.pick(&[any, latest])
    }

    /// A set that one more server may make whole, or any other.
    fn nearly_all(&mut self) -> ServerSet {
        let count = self.facade.servers.len();
        let mut set = ServerSet::all(count);
        match self.random.below(3) {
            0 => set = self.subset(),
            1 => set.remove(self.random.below(count)),
            _ => {}
        }
        set
    }
}
