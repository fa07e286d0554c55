//! Refusal 2 for a facade handed in: every stored number in its range.

use crate::facade::{AddressEntry, Client, Facade, OpenWrite, Server, ServerSet, Tick};
use crate::facade::{LARGEST_READING, LAST_INTERACTION, LAST_TIME, MOST_WAITING};
use crate::message::{Body, Message};
use crate::refusal::Refusal;
use crate::step::LARGEST_END;

impl Facade {
    /// Refusal 2.
    pub fn check(&self) -> Result<(), Refusal> {
        self.configuration.check()?;
        let fits = self.has_right_sizes()
            && self.times_fit()
            && self.servers.iter().all(|server| self.server_fits(server))
            && self.clients.iter().all(|client| self.client_fits(client))
            && self.waiting.iter().all(|message| self.message_fits(message));
        if fits {
            Ok(())
        } else {
            Err(Refusal::Range)
        }
    }

    fn has_right_sizes(&self) -> bool {
        let servers = self.configuration.servers as usize;
        let clients = self.configuration.clients as usize;
        let addresses = self.configuration.addresses as usize;
        self.servers.len() == servers
            && self.clients.len() == clients
            && self.offsets.len() == servers + clients
            && self.servers.iter().all(|server| server.entries.len() == addresses)
            && self.waiting.len() <= MOST_WAITING
    }

    /// True time, clocks, notice times and the next interaction number.
    fn times_fit(&self) -> bool {
        let skew = self.skew();
        let clock_fits = |offset: &Tick| (-skew..=skew).contains(offset) && self.time + offset >= 0;
        let count = self.servers.len();
        let mut pairs = (0..count).flat_map(|server| (0..count).map(move |about| (server, about)));
        (0..=LAST_TIME).contains(&self.time)
            && self.offsets.iter().all(clock_fits)
            && (1..=LAST_INTERACTION + 1).contains(&self.next_interaction)
            && pairs.all(|(server, about)| {
                server == about || self.true_time_fits(self.notice_times[server][about])
            })
    }

    fn true_time_fits(&self, time: Tick) -> bool {
        (0..=self.time).contains(&time)
    }

    /// Used already: from 1 and below the next one.
    fn interaction_fits(&self, interaction: u32) -> bool {
        (1..self.next_interaction).contains(&interaction)
    }

    fn address_fits(&self, address: usize) -> bool {
        address < self.configuration.addresses as usize
    }

    fn set_fits(&self, set: ServerSet) -> bool {
        set.0 & !ServerSet::all(self.servers.len()).0 == 0
    }

    fn server_fits(&self, server: &Server) -> bool {
        self.true_time_fits(server.changed)
            && reading_fits(server.return_reading)
            && self.set_fits(server.believed_live)
            && server.entries.iter().all(|entry| self.entry_fits(entry))
    }

    fn entry_fits(&self, entry: &AddressEntry) -> bool {
        end_fits(entry.lent_end)
            && end_fits(entry.record)
            && entry.reservation.is_none_or(|held| {
                self.interaction_fits(held.interaction) && reading_fits(held.reading)
            })
            && entry.write.is_none_or(|write| self.write_fits(&write))
    }

    fn write_fits(&self, write: &OpenWrite) -> bool {
        self.interaction_fits(write.interaction)
            && end_fits(write.end)
            && self.set_fits(write.acknowledged)
    }

    fn client_fits(&self, client: &Client) -> bool {
        match *client {
            Client::Idle => true,
            Client::Asking { interaction } => self.interaction_fits(interaction),
            Client::Offered { interaction, address } | Client::Waiting { interaction, address } => {
                self.interaction_fits(interaction) && self.address_fits(address)
            }
            Client::Holding { address, end, interaction } => {
                self.interaction_fits(interaction) && self.address_fits(address) && end_fits(end)
            }
        }
    }

    fn message_fits(&self, message: &Message) -> bool {
        let servers = self.servers.len();
        let parties = self.offsets.len();
        let party_fits =
            |party: usize, is_server: bool| party < parties && (party < servers) == is_server;
        let body = &message.body;
        party_fits(message.from, body.from_server())
            && party_fits(message.to, body.to_server())
            && self.interaction_fits(body.interaction())
            && body.address().is_none_or(|address| self.address_fits(address))
            && ends_fit(body)
    }
}

fn reading_fits(reading: Tick) -> bool {
    (0..=LARGEST_READING).contains(&reading)
}

fn end_fits(end: Tick) -> bool {
    (0..=Tick::from(LARGEST_END)).contains(&end)
}

/// The ends and the τ that a message carries.
fn ends_fit(body: &Body) -> bool {
    match *body {
        Body::Discover { .. } | Body::Offer { .. } => true,
        Body::Request { wanted, .. } => end_fits(wanted),
        Body::Renew { old_end, wanted, .. } => end_fits(old_end) && end_fits(wanted),
        Body::Ack { end, .. } | Body::Write { end, .. } | Body::WriteAck { end, .. } => {
            end_fits(end)
        }
    }
}
