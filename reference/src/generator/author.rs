//! The author of one script: the model as far as the script has come, and
//! the bytes so far.

use super::temper::Temper;
use crate::configuration::Configuration;
use crate::facade::{Client, Facade, Tick, LAST_TIME};
use crate::random::Random;
use crate::script::VERSION;
use crate::step::{RawStep, Step, LONGEST_PASS};
use crate::writer::{push_header, push_record};

pub struct Author {
    pub random: Random,
    pub facade: Facade,
    pub temper: Temper,
    /// Client steps and kept messages fill the list for a while.
    pub flooding: bool,
    script: Vec<u8>,
}

/// The longest record of a known kind.
const LONGEST_KNOWN_RECORD: usize = 14;

impl Author {
    /// The configuration must be in range.
    pub fn new(random: Random, configuration: Configuration, temper: Temper) -> Self {
        let mut script = Vec::new();
        push_header(&mut script, VERSION, &configuration);
        let facade = Facade::fresh(configuration).expect("the configuration is in range");
        Author { random, facade, temper, flooding: false, script }
    }

    /// Writes so many records, or as many as fit below the limit.
    pub fn write(&mut self, records: usize, limit: usize) {
        let mut written = 0;
        while written < records && self.script.len() + LONGEST_KNOWN_RECORD <= limit {
            if self.random.chance(self.temper.mischief) {
                self.write_mischief(limit);
            } else {
                let step = self.progress();
                self.put(step.raw());
            }
            written += 1;
        }
    }

    pub fn finish(self) -> (Vec<u8>, Random) {
        (self.script, self.random)
    }

    /// Writes a record of a known kind and takes the step if it is not
    /// refused.
    pub fn put(&mut self, raw: RawStep) {
        push_record(&mut self.script, &raw);
        if let Ok(step) = Step::parse(&raw) {
            // A refused step leaves the facade as it is, which is all the
            // author needs to know of it.
            let _ = self.facade.apply(step);
        }
    }

    /// Writes a record of an unknown kind if it fits below the limit.
    pub fn put_unknown(&mut self, kind: u8, content: &[u8], limit: usize) {
        if self.script.len() + 2 + content.len() > limit {
            return;
        }
        self.script.push(1 + content.len() as u8);
        self.script.push(kind);
        self.script.extend_from_slice(content);
    }

    /// How far true time may pass without refusals 5, 8 and 10.
    pub fn slack(&self) -> Tick {
        let facade = &self.facade;
        let detection = facade.detection();
        let notices = self
            .pairs()
            .map(|(server, about)| facade.notice_times[server][about] + detection - facade.time);
        let slack = notices.min().unwrap_or(Tick::from(LONGEST_PASS));
        slack.min(Tick::from(LONGEST_PASS)).min(LAST_TIME - facade.time)
    }

    /// Every live server with every other server.
    pub fn pairs(&self) -> impl Iterator<Item = (usize, usize)> + '_ {
        let count = self.facade.servers.len();
        (0..count).filter(|&server| self.facade.servers[server].alive).flat_map(move |server| {
            (0..count).filter(move |&about| about != server).map(move |about| (server, about))
        })
    }

    /// One of the servers with that life, if any.
    pub fn some_server(&mut self, alive: bool) -> Option<usize> {
        let servers = &self.facade.servers;
        let fitting: Vec<usize> =
            (0..servers.len()).filter(|&server| servers[server].alive == alive).collect();
        self.one_of(&fitting)
    }

    /// One of the clients in such a state, if any.
    pub fn some_client(&mut self, fits: impl Fn(&Client) -> bool) -> Option<usize> {
        let clients = &self.facade.clients;
        let fitting: Vec<usize> =
            (0..clients.len()).filter(|&client| fits(&clients[client])).collect();
        self.one_of(&fitting)
    }

    /// One of these, if any.
    pub fn one_of(&mut self, choices: &[usize]) -> Option<usize> {
        (!choices.is_empty()).then(|| self.random.pick(choices))
    }
}

pub fn is_holding(client: &Client) -> bool {
    matches!(client, Client::Holding { .. })
}

pub fn is_offered(client: &Client) -> bool {
    matches!(client, Client::Offered { .. })
}
