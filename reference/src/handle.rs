//! Delivering and handling a message ("Handling a message").

use crate::facade::{Client, Facade, OpenWrite, Reservation, ServerSet, Tick, MOST_WAITING};
use crate::message::{Body, Message};
use crate::refusal::{Answer, Outcome, Refusal};

/// How many messages handling may still send. Asked for before the first
/// change, because refusal 13 must leave the facade as it was given.
#[derive(Clone, Copy)]
struct Room(usize);

impl Room {
    fn need(self, count: usize) -> Result<(), Refusal> {
        if count > self.0 {
            return Err(Refusal::Waiting);
        }
        Ok(())
    }
}

impl Facade {
    pub(crate) fn deliver(&mut self, position: usize, keep: bool) -> Answer {
        let Some(&message) = self.waiting.get(position) else {
            return Err(Refusal::Missing);
        };
        let staying = self.waiting.len() - usize::from(!keep);
        let outcome = self.handle(message, Room(MOST_WAITING - staying))?;
        // Answers go to the end, so taking the message out only now leaves
        // the same list as taking it out first.
        if !keep {
            self.waiting.remove(position);
        }
        Ok(outcome)
    }

    fn handle(&mut self, message: Message, room: Room) -> Answer {
        let Message { from, to, body } = message;
        if self.servers.get(to).is_some_and(|server| !server.alive) {
            return Ok(Outcome::DeadReceiver);
        }
        match body {
            Body::Discover { interaction } => self.handle_discover(to, from, interaction, room),
            Body::Offer { interaction, address } => self.handle_offer(to, interaction, address),
            Body::Request { interaction, address, wanted } => {
                let asked = Lending { server: to, client: from, interaction, address, wanted };
                self.handle_request(asked, room)
            }
            Body::Renew { interaction, address, old_end, wanted } => {
                let asked = Lending { server: to, client: from, interaction, address, wanted };
                self.handle_renew(asked, old_end, room)
            }
            Body::Ack { interaction, address, end } => {
                self.handle_ack(to, interaction, address, end)
            }
            Body::Write { interaction, address, end } => {
                self.handle_write(to, from, interaction, address, end, room)
            }
            Body::WriteAck { interaction, address, end } => {
                self.handle_write_ack(to, from, interaction, address, end)
            }
        }
    }

    /// Reserves and offers the lowest-numbered address that is led, not
    /// reserved, and whose record is past.
    fn handle_discover(
        &mut self,
        server: usize,
        client: usize,
        interaction: u32,
        room: Room,
    ) -> Answer {
        let clock = self.clock(server);
        let margin = 2 * self.skew();
        let entries = &mut self.servers[server].entries;
        let free = entries.iter().position(|entry| {
            entry.leads && entry.reservation.is_none() && entry.record + margin < clock
        });
        let Some(address) = free else {
            return Ok(Outcome::NotMet);
        };
        room.need(1)?;
        entries[address].reservation = Some(Reservation { interaction, reading: clock });
        self.send(server, client, Body::Offer { interaction, address });
        Ok(Outcome::Done)
    }

    fn handle_offer(&mut self, party: usize, interaction: u32, address: usize) -> Answer {
        let state = &mut self.clients[party - self.servers.len()];
        if *state != (Client::Asking { interaction }) {
            return Ok(Outcome::NotMet);
        }
        *state = Client::Offered { interaction, address };
        Ok(Outcome::Done)
    }

    fn handle_request(&mut self, asked: Lending, room: Room) -> Answer {
        let leads = self.servers[asked.server].entries[asked.address].leads;
        let taken = leads && self.record_is_past(asked.server, asked.address);
        if taken {
            room.need(self.servers.len())?;
        }
        // Dropped in any case: also where the address is not lent.
        self.drop_reservations(asked.server, asked.interaction);
        if !taken {
            return Ok(Outcome::NotMet);
        }
        let lent_end = self.clock(asked.server) + self.mclt();
        self.lend(asked, lent_end);
        Ok(Outcome::Done)
    }

    fn drop_reservations(&mut self, server: usize, interaction: u32) {
        for entry in &mut self.servers[server].entries {
            if matches!(entry.reservation, Some(held) if held.interaction == interaction) {
                entry.reservation = None;
            }
        }
    }

    fn handle_renew(&mut self, asked: Lending, old_end: Tick, room: Room) -> Answer {
        let clock = self.clock(asked.server);
        let entry = &self.servers[asked.server].entries[asked.address];
        if !entry.leads || old_end < clock {
            return Ok(Outcome::NotMet);
        }
        room.need(self.servers.len())?;
        let lent_end = entry.lent_end.max(clock + self.mclt());
        self.lend(asked, lent_end);
        Ok(Outcome::Done)
    }

    /// The rest of a request or renew that is taken: the ack carries the lent
    /// end, never the wanted one; the writes carry the larger of the two.
    fn lend(&mut self, asked: Lending, lent_end: Tick) {
        let Lending { server, client, interaction, address, wanted } = asked;
        let end = wanted.max(lent_end);
        let entry = &mut self.servers[server].entries[address];
        entry.lent_end = lent_end;
        entry.record = entry.record.max(end);
        entry.write = Some(OpenWrite { interaction, end, acknowledged: ServerSet::only(server) });
        self.send(server, client, Body::Ack { interaction, address, end: lent_end });
        for other in (0..self.servers.len()).filter(|&other| other != server) {
            self.send(server, other, Body::Write { interaction, address, end });
        }
    }

    /// "A holding client that receives an ack shall keep the later of its own
    /// end and the new one. A waiting client takes the end it gets. An ack
    /// whose end is not above the client's clock is still outcome 1." (C-11)
    ///
    /// A client that waits has no end of its own yet.
    fn handle_ack(&mut self, party: usize, interaction: u32, address: usize, end: Tick) -> Answer {
        let clock = self.clock(party);
        let state = &mut self.clients[party - self.servers.len()];
        let kept = match *state {
            Client::Waiting { interaction: own, address: wished }
                if own == interaction && wished == address =>
            {
                end
            }
            Client::Holding { address: held, end: own_end, interaction: last }
                if last == interaction && held == address =>
            {
                own_end.max(end)
            }
            _ => return Ok(Outcome::NotMet),
        };
        // The ack's end is what counts here: a late ack changes nothing, also
        // where the own end is later.
        if end <= clock {
            return Ok(Outcome::NotMet);
        }
        *state = Client::Holding { address, end: kept, interaction };
        Ok(Outcome::Done)
    }

    fn handle_write(
        &mut self,
        server: usize,
        sender: usize,
        interaction: u32,
        address: usize,
        end: Tick,
        room: Room,
    ) -> Answer {
        room.need(1)?;
        let entry = &mut self.servers[server].entries[address];
        entry.record = entry.record.max(end);
        self.send(server, sender, Body::WriteAck { interaction, address, end });
        Ok(Outcome::Done)
    }

    /// Counts only for the open write with both the same interaction and the
    /// same end.
    fn handle_write_ack(
        &mut self,
        server: usize,
        sender: usize,
        interaction: u32,
        address: usize,
        end: Tick,
    ) -> Answer {
        let all = ServerSet::all(self.servers.len());
        let entry = &mut self.servers[server].entries[address];
        let leads = entry.leads;
        let write = match &mut entry.write {
            Some(write) if leads && write.interaction == interaction && write.end == end => write,
            _ => return Ok(Outcome::NotMet),
        };
        write.acknowledged.insert(sender);
        if write.acknowledged == all {
            entry.lent_end = entry.lent_end.max(end);
            entry.write = None;
        }
        Ok(Outcome::Done)
    }

    fn send(&mut self, from: usize, to: usize, body: Body) {
        self.waiting.push(Message { from, to, body });
    }
}

/// What a server is asked to lend, and by whom.
#[derive(Clone, Copy)]
struct Lending {
    server: usize,
    client: usize,
    interaction: u32,
    address: usize,
    wanted: Tick,
}
