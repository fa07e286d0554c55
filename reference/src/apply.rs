//! The ten steps on a facade. Every test comes before the first change, so a
//! refused step leaves the facade as it was given.

use crate::facade::{AddressEntry, Client, Facade, ServerSet, Tick};
use crate::facade::{LAST_INTERACTION, LAST_TIME, MOST_WAITING};
use crate::message::{Body, Message};
use crate::refusal::{Answer, Outcome, Refusal};
use crate::step::{RawStep, Step};

impl Facade {
    /// One step on a facade handed in: refusals 2, 4 and 5, then the rest.
    pub fn step(&mut self, raw: &RawStep) -> Answer {
        self.check()?;
        self.apply(Step::parse(raw)?)
    }

    /// One step on a facade in range, such as every facade that a script
    /// reaches: refusals 6 to 13 in their order.
    pub fn apply(&mut self, step: Step) -> Answer {
        match step {
            Step::Pass { d, party, e } => self.pass(d, party, e),
            Step::Fail { server } => self.fail(server),
            Step::Return { server } => self.restore(server),
            Step::Notice { server, about, alive } => self.notice(server, about, alive),
            Step::Discover { client } => self.discover(client),
            Step::Request { client, wanted } => self.request(client, wanted),
            Step::Renew { client, wanted } => self.renew(client, wanted),
            Step::Deliver { position, keep } => self.deliver(position, keep),
            Step::Lose { position } => self.lose(position),
            Step::Cleanup { server } => self.cleanup(server),
        }
    }

    fn pass(&mut self, d: Tick, party: usize, e: Tick) -> Answer {
        let Some(&offset) = self.offsets.get(party) else {
            return Err(Refusal::Missing);
        };
        let now = self.time + d;
        if now > LAST_TIME {
            return Err(Refusal::Time);
        }
        if d + e < 0 || (offset + e).abs() > self.skew() {
            return Err(Refusal::Clock);
        }
        if self.overdue_at(now) {
            return Err(Refusal::Overdue);
        }
        self.time = now;
        self.offsets[party] = offset + e;
        self.end_holds();
        Ok(Outcome::Done)
    }

    /// Refusal 10: some live server would be more than ν without a notice
    /// about another, whether that other is alive or not.
    fn overdue_at(&self, now: Tick) -> bool {
        let earliest = now - self.detection();
        let count = self.servers.len();
        (0..count).any(|server| {
            let missed = |about| about != server && self.notice_times[server][about] < earliest;
            self.servers[server].alive && (0..count).any(missed)
        })
    }

    /// A client holding an end not above its clock becomes idle.
    fn end_holds(&mut self) {
        let time = self.time;
        let offsets = &self.offsets[self.servers.len()..];
        for (client, offset) in self.clients.iter_mut().zip(offsets) {
            if matches!(*client, Client::Holding { end, .. } if end <= time + offset) {
                *client = Client::Idle;
            }
        }
    }

    /// Refusal 6, then 7, for steps that need the server alive or dead.
    fn need_server(&self, server: usize, alive: bool) -> Result<(), Refusal> {
        match self.servers.get(server) {
            None => Err(Refusal::Missing),
            Some(found) if found.alive != alive => Err(Refusal::State),
            Some(_) => Ok(()),
        }
    }

    /// A failing server keeps all it stores; only its return clears it.
    fn fail(&mut self, server: usize) -> Answer {
        self.need_server(server, true)?;
        self.servers[server].alive = false;
        self.servers[server].changed = self.time;
        Ok(Outcome::Done)
    }

    fn restore(&mut self, server: usize) -> Answer {
        self.need_server(server, false)?;
        let clock = self.clock(server);
        let count = self.servers.len();
        let returned = &mut self.servers[server];
        returned.alive = true;
        returned.changed = self.time;
        returned.return_reading = clock;
        returned.believed_live = ServerSet::all(count);
        for entry in &mut returned.entries {
            // Records survive.
            *entry = AddressEntry { record: entry.record, ..AddressEntry::FRESH };
        }
        for about in (0..count).filter(|&about| about != server) {
            self.notice_times[server][about] = self.time;
        }
        Ok(Outcome::Done)
    }

    fn notice(&mut self, server: usize, about: usize, alive: bool) -> Answer {
        let count = self.servers.len();
        if server >= count || about >= count || server == about {
            return Err(Refusal::Missing);
        }
        self.need_server(server, true)?;
        let subject = &self.servers[about];
        let settled = self.time - subject.changed >= self.detection();
        if subject.alive != alive && settled {
            return Err(Refusal::FalseNotice);
        }
        self.notice_times[server][about] = self.time;
        let believed = &mut self.servers[server].believed_live;
        if alive {
            believed.insert(about);
        } else {
            believed.remove(about);
        }
        self.choose_led(server);
        Ok(Outcome::Done)
    }

    /// After a notice: the server leads an address if it is first among its
    /// believed live and either led it already or waited 2ν + 2Δ since its
    /// return. On beginning to lead it raises the record.
    fn choose_led(&mut self, server: usize) {
        let clock = self.clock(server);
        let first_record = clock + self.mclt() + 2 * self.skew();
        let wait = 2 * self.detection() + 2 * self.skew();
        let count = self.servers.len();
        let state = &mut self.servers[server];
        let may_begin = clock >= state.return_reading + wait;
        let believed = state.believed_live;
        for (address, entry) in state.entries.iter_mut().enumerate() {
            let first = first_believed(believed, address, count) == Some(server);
            let leads = first && (entry.leads || may_begin);
            if leads && !entry.leads {
                entry.record = entry.record.max(first_record);
            }
            entry.leads = leads;
        }
    }

    fn discover(&mut self, client: usize) -> Answer {
        match self.clients.get(client) {
            None => return Err(Refusal::Missing),
            Some(Client::Holding { .. }) => return Err(Refusal::State),
            Some(_) => {}
        }
        self.need_interaction()?;
        self.need_room_for_broadcast()?;
        let interaction = self.take_interaction();
        self.clients[client] = Client::Asking { interaction };
        self.broadcast(client, Body::Discover { interaction });
        Ok(Outcome::Done)
    }

    fn request(&mut self, client: usize, wanted: Tick) -> Answer {
        let (interaction, address) = match self.clients.get(client) {
            None => return Err(Refusal::Missing),
            Some(&Client::Offered { interaction, address }) => (interaction, address),
            Some(_) => return Err(Refusal::State),
        };
        self.need_room_for_broadcast()?;
        self.clients[client] = Client::Waiting { interaction, address };
        self.broadcast(client, Body::Request { interaction, address, wanted });
        Ok(Outcome::Done)
    }

    fn renew(&mut self, client: usize, wanted: Tick) -> Answer {
        let (address, end) = match self.clients.get(client) {
            None => return Err(Refusal::Missing),
            Some(&Client::Holding { address, end, .. }) => (address, end),
            Some(_) => return Err(Refusal::State),
        };
        self.need_interaction()?;
        self.need_room_for_broadcast()?;
        let interaction = self.take_interaction();
        self.clients[client] = Client::Holding { address, end, interaction };
        self.broadcast(client, Body::Renew { interaction, address, old_end: end, wanted });
        Ok(Outcome::Done)
    }

    /// Refusal 12.
    fn need_interaction(&self) -> Result<(), Refusal> {
        if self.next_interaction > LAST_INTERACTION {
            return Err(Refusal::Interaction);
        }
        Ok(())
    }

    /// Refusal 13 for one message to each server.
    fn need_room_for_broadcast(&self) -> Result<(), Refusal> {
        if self.waiting.len() + self.servers.len() > MOST_WAITING {
            return Err(Refusal::Waiting);
        }
        Ok(())
    }

    fn take_interaction(&mut self) -> u32 {
        let interaction = self.next_interaction;
        self.next_interaction += 1;
        interaction
    }

    /// Sends to each server, dead ones too, in server order.
    fn broadcast(&mut self, client: usize, body: Body) {
        let from = self.client_party(client);
        for to in 0..self.servers.len() {
            self.waiting.push(Message { from, to, body });
        }
    }

    fn lose(&mut self, position: usize) -> Answer {
        if position >= self.waiting.len() {
            return Err(Refusal::Missing);
        }
        self.waiting.remove(position);
        Ok(Outcome::Done)
    }

    /// Drops each reservation whose reading + θ < clock.
    fn cleanup(&mut self, server: usize) -> Answer {
        self.need_server(server, true)?;
        let clock = self.clock(server);
        let retention = self.retention();
        for entry in &mut self.servers[server].entries {
            if matches!(entry.reservation, Some(held) if held.reading + retention < clock) {
                entry.reservation = None;
            }
        }
        Ok(Outcome::Done)
    }
}

/// The order for an address puts server j at rank (j − address) mod S; this
/// is the believed live server of the lowest rank.
fn first_believed(believed: ServerSet, address: usize, count: usize) -> Option<usize> {
    (0..count).map(|rank| (address + rank) % count).find(|&server| believed.contains(server))
}
