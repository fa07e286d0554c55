//! What a facade keeps ("The facade").

use crate::configuration::Configuration;
use crate::message::Message;
use crate::refusal::Refusal;

/// Times, ends, records, clock readings and offsets, in whole ticks.
pub type Tick = i64;

pub const LAST_TIME: Tick = 1_000_000_000;
pub const LARGEST_READING: Tick = 1_000_001_000;
pub const LAST_INTERACTION: u32 = 1_000_000;
pub const MOST_WAITING: usize = 128;
pub const MOST_SERVERS: usize = 4;

/// A set of servers.
#[derive(Clone, Copy, Debug, PartialEq, Eq)]
pub struct ServerSet(pub u8);

impl ServerSet {
    /// The servers 0 to count−1.
    pub fn all(count: usize) -> Self {
        ServerSet(((1u16 << count) - 1) as u8)
    }

    pub fn only(server: usize) -> Self {
        ServerSet(1 << server)
    }

    pub fn contains(self, server: usize) -> bool {
        self.0 & (1 << server) != 0
    }

    pub fn insert(&mut self, server: usize) {
        self.0 |= 1 << server;
    }

    pub fn remove(&mut self, server: usize) {
        self.0 &= !(1 << server);
    }
}

#[derive(Clone, Copy, Debug, PartialEq, Eq)]
pub struct Reservation {
    pub interaction: u32,
    /// The server's clock when it reserved.
    pub reading: Tick,
}

/// A write that not all servers have acknowledged yet.
#[derive(Clone, Copy, Debug, PartialEq, Eq)]
pub struct OpenWrite {
    pub interaction: u32,
    pub end: Tick,
    pub acknowledged: ServerSet,
}

/// What a server keeps for one address.
#[derive(Clone, Copy, Debug, PartialEq, Eq)]
pub struct AddressEntry {
    pub leads: bool,
    pub reservation: Option<Reservation>,
    /// acklease
    pub lent_end: Tick,
    /// potlease
    pub record: Tick,
    pub write: Option<OpenWrite>,
}

impl AddressEntry {
    pub const FRESH: AddressEntry =
        AddressEntry { leads: false, reservation: None, lent_end: 0, record: 0, write: None };
}

#[derive(Clone, Debug, PartialEq, Eq)]
pub struct Server {
    pub alive: bool,
    /// c, the true time of the last fail or return.
    pub changed: Tick,
    pub return_reading: Tick,
    pub believed_live: ServerSet,
    /// One entry per address.
    pub entries: Vec<AddressEntry>,
}

#[derive(Clone, Copy, Debug, PartialEq, Eq)]
pub enum Client {
    Idle,
    Asking { interaction: u32 },
    Offered { interaction: u32, address: usize },
    Waiting { interaction: u32, address: usize },
    Holding { address: usize, end: Tick, interaction: u32 },
}

#[derive(Clone, Debug, PartialEq, Eq)]
pub struct Facade {
    pub configuration: Configuration,
    /// True time.
    pub time: Tick,
    /// By party: how far its clock is ahead of true time.
    pub offsets: Vec<Tick>,
    pub servers: Vec<Server>,
    pub clients: Vec<Client>,
    /// `notice_times[i][j]`: when server i last had a notice about server j.
    /// A server has no notices about itself; those places stay 0.
    pub notice_times: [[Tick; MOST_SERVERS]; MOST_SERVERS],
    /// In the order sent.
    pub waiting: Vec<Message>,
    pub next_interaction: u32,
}

impl Facade {
    /// The fresh facade, or refusal 2 for the configuration.
    pub fn fresh(configuration: Configuration) -> Result<Facade, Refusal> {
        configuration.check()?;
        let servers = configuration.servers as usize;
        let clients = configuration.clients as usize;
        let server = Server {
            alive: true,
            changed: 0,
            return_reading: 0,
            believed_live: ServerSet::all(servers),
            entries: vec![AddressEntry::FRESH; configuration.addresses as usize],
        };
        Ok(Facade {
            configuration,
            time: 0,
            offsets: vec![0; servers + clients],
            servers: vec![server; servers],
            clients: vec![Client::Idle; clients],
            notice_times: [[0; MOST_SERVERS]; MOST_SERVERS],
            // One place more than may wait, because `deliver` takes its
            // message out after the answers went in.
            waiting: Vec::with_capacity(MOST_WAITING + 1),
            next_interaction: 1,
        })
    }

    /// A party's clock.
    pub fn clock(&self, party: usize) -> Tick {
        self.time + self.offsets[party]
    }

    /// The party number of a client.
    pub fn client_party(&self, client: usize) -> usize {
        self.servers.len() + client
    }

    pub fn skew(&self) -> Tick {
        Tick::from(self.configuration.skew)
    }

    pub fn detection(&self) -> Tick {
        Tick::from(self.configuration.detection)
    }

    pub fn mclt(&self) -> Tick {
        Tick::from(self.configuration.mclt)
    }

    pub fn retention(&self) -> Tick {
        Tick::from(self.configuration.retention)
    }

    /// "record + 2Δ < clock": no lease of the address can still run.
    pub fn record_is_past(&self, server: usize, address: usize) -> bool {
        let record = self.servers[server].entries[address].record;
        record + 2 * self.skew() < self.clock(server)
    }

    /// How many clients hold.
    pub fn held(&self) -> usize {
        let holds = |client: &&Client| matches!(client, Client::Holding { .. });
        self.clients.iter().filter(holds).count()
    }
}
