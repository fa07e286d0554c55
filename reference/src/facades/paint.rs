//! Facades in range with random states, most numbers near a reading at which
//! a rule changes its answer. Nothing says that steps lead there.

use super::frame::Frame;
use crate::facade::{AddressEntry, Client, Facade, OpenWrite, Reservation, Server, ServerSet};
use crate::facade::{Tick, LARGEST_READING};
use crate::random::Random;
use crate::step::LARGEST_END;

pub struct Painter<'a> {
    pub random: &'a mut Random,
    pub facade: &'a mut Facade,
}

/// A facade within the frame.
pub fn paint(random: &mut Random, frame: &Frame) -> Facade {
    let mut facade = Facade::fresh(frame.configuration).expect("the configuration is in range");
    let mut painter = Painter { random, facade: &mut facade };
    painter.facade.time = frame.time;
    painter.facade.next_interaction = frame.next_interaction;
    painter.paint_times(frame.recent);
    for server in 0..frame.servers() {
        painter.facade.servers[server] = painter.server(server);
    }
    for client in 0..frame.clients() {
        painter.facade.clients[client] = painter.client(client);
    }
    for _ in 0..frame.waiting {
        let message = painter.message();
        painter.facade.waiting.push(message);
    }
    facade
}

impl Painter<'_> {
    /// The offsets and the times of notices.
    fn paint_times(&mut self, recent: bool) {
        let time = self.facade.time;
        let skew = self.facade.skew();
        let least = (-skew).max(-time);
        for party in 0..self.facade.offsets.len() {
            let inside = self.random.between(least, skew);
            self.facade.offsets[party] = self.random.pick(&[0, 0, least, skew, inside]);
        }
        let earliest = if recent { (time - self.facade.detection()).max(0) } else { 0 };
        let count = self.facade.servers.len();
        for server in 0..count {
            for about in (0..count).filter(|&about| about != server) {
                let inside = self.random.between(earliest, time);
                self.facade.notice_times[server][about] =
                    self.random.pick(&[time, time, inside, inside, earliest]);
            }
        }
    }

    fn server(&mut self, server: usize) -> Server {
        let time = self.facade.time;
        let clock = self.facade.clock(server);
        let detection = self.facade.detection();
        let changed = self.near(&[0, time, time - detection, time - detection + 1], time);
        let wait = 2 * detection + 2 * self.facade.skew();
        Server {
            alive: self.random.chance(780),
            changed: changed.min(time),
            return_reading: self.near(&[0, clock - wait, clock - wait, clock], LARGEST_READING),
            believed_live: self.believed(server),
            entries: (0..self.facade.configuration.addresses).map(|_| self.entry(server)).collect(),
        }
    }

    /// Often only what makes the server first of some address; sometimes
    /// without itself.
    fn believed(&mut self, server: usize) -> ServerSet {
        let all = ServerSet::all(self.facade.servers.len());
        let mut set = self.subset();
        match self.random.weighted(&[35, 20, 30, 15]) {
            0 => set = all,
            1 => set = ServerSet::only(server),
            2 => set.insert(server),
            _ => {}
        }
        set
    }

    /// Any set of servers.
    pub fn subset(&mut self) -> ServerSet {
        let all = ServerSet::all(self.facade.servers.len());
        ServerSet(self.random.number() as u8 & all.0)
    }

    fn entry(&mut self, server: usize) -> AddressEntry {
        AddressEntry {
            leads: self.random.chance(550),
            reservation: self.reservation(server),
            lent_end: self.end(server),
            record: self.record(server),
            write: self.write(server),
        }
    }

    fn reservation(&mut self, server: usize) -> Option<Reservation> {
        let interaction = self.interaction()?;
        if self.random.chance(600) {
            return None;
        }
        let clock = self.facade.clock(server);
        let dropped = clock - self.facade.retention();
        let reading = self.near(&[dropped, dropped, clock], LARGEST_READING);
        Some(Reservation { interaction, reading })
    }

    fn record(&mut self, server: usize) -> Tick {
        let clock = self.facade.clock(server);
        let margin = 2 * self.facade.skew();
        let begun = clock + self.facade.mclt() + margin;
        match self.random.weighted(&[45, 25, 30]) {
            0 => self.random.between(0, clock - margin - 1),
            1 => self.near(&[clock - margin, clock - margin, begun], LARGEST_END.into()),
            _ => self.end(server),
        }
    }

    fn write(&mut self, server: usize) -> Option<OpenWrite> {
        let interaction = self.interaction()?;
        if self.random.chance(550) {
            return None;
        }
        let all = ServerSet::all(self.facade.servers.len());
        let mut all_but_one = all;
        all_but_one.remove(self.random.below(self.facade.servers.len()));
        let any = self.subset();
        let sets = [ServerSet::only(server), all_but_one, any, all, ServerSet(0)];
        let acknowledged = sets[self.random.weighted(&[35, 30, 15, 10, 10])];
        Some(OpenWrite { interaction, end: self.end(server), acknowledged })
    }

    fn client(&mut self, client: usize) -> Client {
        let Some(interaction) = self.interaction() else {
            return Client::Idle;
        };
        let address = self.address();
        match self.random.below(5) {
            0 => Client::Idle,
            1 => Client::Asking { interaction },
            2 => Client::Offered { interaction, address },
            3 => Client::Waiting { interaction, address },
            _ => {
                let end = self.end(self.facade.client_party(client));
                Client::Holding { address, end, interaction }
            }
        }
    }

    /// One used already, if there is any; mostly one of two.
    pub fn interaction(&mut self) -> Option<u32> {
        let last = self.facade.next_interaction - 1;
        if last == 0 {
            return None;
        }
        let any = self.random.between(1, last.into()) as u32;
        Some(self.random.pick(&[1, last, last, any]))
    }

    pub fn address(&mut self) -> usize {
        self.random.below(self.facade.configuration.addresses as usize)
    }

    /// An end that the party's clock may be just at.
    pub fn end(&mut self, party: usize) -> Tick {
        let clock = self.facade.clock(party);
        let mclt = self.facade.mclt();
        let soon = clock + self.random.between(0, 100);
        self.near(&[0, clock, clock, clock + mclt, soon, soon], LARGEST_END.into())
    }

    /// One of these or a tick beside it, or any number, or the largest.
    pub fn near(&mut self, readings: &[Tick], largest: Tick) -> Tick {
        let reading = self.random.pick(readings) + self.random.pick(&[-1, 0, 0, 1]);
        let any = self.random.between(0, largest);
        let chosen = [reading, any, largest][self.random.weighted(&[80, 14, 6])];
        chosen.clamp(0, largest)
    }
}
