//! From a flat list to the facade that it codes.

use super::cases::{read_client, read_flag, read_message, read_reservation, read_write};
use super::places::{ADDRESSES, CLIENTS, MESSAGES, PARTIES, SERVERS};
use crate::configuration::Configuration;
use crate::facade::{AddressEntry, Client, Facade, Server, ServerSet, Tick};
use crate::message::Message;
use crate::refusal::Refusal;

/// What a list codes: every place, used or not, whatever the configuration.
/// Only the flags beside a write that is none are left out.
#[derive(Clone, Debug, PartialEq, Eq)]
pub struct Places {
    pub configuration: Configuration,
    pub time: u32,
    pub next_interaction: u32,
    pub waiting: u32,
    pub offsets: Vec<Tick>,
    pub notice_times: [[Tick; SERVERS]; SERVERS],
    pub servers: Vec<Server>,
    pub clients: Vec<Client>,
    pub messages: Vec<Option<Message>>,
}

/// None if the list codes nothing: a wrong length, a flag above 1, an unknown
/// case, or a number other than 0 where the case has none.
pub fn from_numbers(numbers: &[u32]) -> Option<Places> {
    let mut reader = Reader { rest: numbers };
    let places = reader.places()?;
    reader.rest.is_empty().then_some(places)
}

/// Reads from the front; None where the list ends too early or codes nothing.
struct Reader<'a> {
    rest: &'a [u32],
}

impl Reader<'_> {
    fn take<const COUNT: usize>(&mut self) -> Option<[u32; COUNT]> {
        let (taken, rest) = self.rest.split_first_chunk()?;
        self.rest = rest;
        Some(*taken)
    }

    fn places(&mut self) -> Option<Places> {
        let configuration = Configuration::from_numbers(self.take()?);
        let [time, next_interaction, waiting] = self.take()?;
        let offsets: [u32; PARTIES] = self.take()?;
        let mut notice_times = [[0; SERVERS]; SERVERS];
        for row in &mut notice_times {
            *row = self.take()?.map(Tick::from);
        }
        let servers: Option<_> = (0..SERVERS).map(|_| self.server()).collect();
        let clients: Option<_> = (0..CLIENTS).map(|_| read_client(self.take()?)).collect();
        let messages: Option<_> = (0..MESSAGES).map(|_| read_message(self.take()?)).collect();
        Some(Places {
            configuration,
            time,
            next_interaction,
            waiting,
            offsets: offsets.iter().map(|&number| Tick::from(number as i32)).collect(),
            notice_times,
            servers: servers?,
            clients: clients?,
            messages: messages?,
        })
    }

    fn server(&mut self) -> Option<Server> {
        let [alive, changed, return_reading] = self.take()?;
        let believed_live = self.set()?;
        let led: [u32; ADDRESSES] = self.take()?;
        let lent_ends: [u32; ADDRESSES] = self.take()?;
        let records: [u32; ADDRESSES] = self.take()?;
        let mut entries = vec![AddressEntry::FRESH; ADDRESSES];
        for (address, entry) in entries.iter_mut().enumerate() {
            entry.leads = read_flag(led[address])?;
            entry.lent_end = lent_ends[address].into();
            entry.record = records[address].into();
            entry.reservation = read_reservation(self.take()?)?;
        }
        for entry in &mut entries {
            let write = self.take()?;
            entry.write = read_write(write, self.set()?)?;
        }
        Some(Server {
            alive: read_flag(alive)?,
            changed: changed.into(),
            return_reading: return_reading.into(),
            believed_live,
            entries,
        })
    }

    /// A flag for each of the four servers.
    fn set(&mut self) -> Option<ServerSet> {
        let flags: [u32; SERVERS] = self.take()?;
        let mut set = ServerSet::all(0);
        for (server, flag) in flags.into_iter().enumerate() {
            if read_flag(flag)? {
                set.insert(server);
            }
        }
        Some(set)
    }
}

impl Places {
    /// The used places. Refusal 2 where it is not known which these are, and
    /// where a place below the waiting count holds no message. All other
    /// numbers are still to be checked.
    pub fn facade(self) -> Result<Facade, Refusal> {
        self.configuration.check()?;
        let servers = self.configuration.servers as usize;
        let clients = self.configuration.clients as usize;
        let mut facade = Facade {
            configuration: self.configuration,
            time: self.time.into(),
            offsets: self.offsets,
            servers: self.servers,
            clients: self.clients,
            notice_times: self.notice_times,
            waiting: waiting_messages(&self.messages, self.waiting)?,
            next_interaction: self.next_interaction,
        };
        facade.offsets.truncate(servers + clients);
        facade.servers.truncate(servers);
        facade.clients.truncate(clients);
        for server in &mut facade.servers {
            cut_server(server, &self.configuration);
        }
        cut_notice_times(&mut facade.notice_times, servers);
        Ok(facade)
    }
}

fn waiting_messages(messages: &[Option<Message>], count: u32) -> Result<Vec<Message>, Refusal> {
    let used = messages.get(..count as usize).ok_or(Refusal::Range)?;
    let waiting: Option<Vec<Message>> = used.iter().copied().collect();
    waiting.ok_or(Refusal::Range)
}

fn cut_server(server: &mut Server, configuration: &Configuration) {
    let all = ServerSet::all(configuration.servers as usize);
    server.believed_live.0 &= all.0;
    server.entries.truncate(configuration.addresses as usize);
    for write in server.entries.iter_mut().filter_map(|entry| entry.write.as_mut()) {
        write.acknowledged.0 &= all.0;
    }
}

/// Of different servers only.
fn cut_notice_times(notice_times: &mut [[Tick; SERVERS]; SERVERS], count: usize) {
    for (server, row) in notice_times.iter_mut().enumerate() {
        for (about, time) in row.iter_mut().enumerate() {
            if server == about || server >= count || about >= count {
                *time = 0;
            }
        }
    }
}
