//! Scripts to measure with. Each is made by a recipe that goes on until the
//! script is as long as wanted, so that a short one is like the start of a
//! long one.

use reference::facade::{Client, Tick, MOST_WAITING};
use reference::random::Random;
use reference::script::{HEADER_LENGTH, LONGEST_SCRIPT, VERSION};
use reference::writer::{push_header, push_record, record_length};
use reference::{Configuration, Facade, RawStep, Step};

use crate::case::record_count;

pub struct Load {
    pub name: String,
    pub script: Vec<u8>,
    pub records: usize,
}

type Recipe = fn(&mut Maker);

/// The script without records, then each recipe at a tenth and in full.
pub fn loads() -> Vec<Load> {
    let recipes: [(&str, Recipe); 4] = [
        ("few parties", few_parties),
        ("many parties", many_parties),
        ("mostly refused", mostly_refused),
        ("nearly full", nearly_full),
    ];
    let mut loads = vec![made("no records", few_parties, HEADER_LENGTH)];
    for (name, recipe) in recipes {
        loads.push(made(&format!("{name}, a tenth"), recipe, LONGEST_SCRIPT / 10));
        loads.push(made(&format!("{name}, in full"), recipe, LONGEST_SCRIPT));
    }
    loads
}

fn made(name: &str, recipe: Recipe, limit: usize) -> Load {
    let mut maker = Maker::new(limit);
    recipe(&mut maker);
    let records = record_count(&reference::rig::run(&maker.script));
    Load { name: name.to_string(), script: maker.script, records }
}

/// A script in the making, with the model run along.
struct Maker {
    script: Vec<u8>,
    limit: usize,
    full: bool,
    facade: Facade,
    random: Random,
}

impl Maker {
    fn new(limit: usize) -> Self {
        let facade = Facade::fresh(FEW).expect("the configuration is in range");
        let mut maker =
            Maker { script: Vec::new(), limit, full: false, facade, random: Random::new(1) };
        maker.begin(FEW);
        maker
    }

    /// Starts the script over with this configuration.
    fn begin(&mut self, configuration: Configuration) {
        self.script.clear();
        push_header(&mut self.script, VERSION, &configuration);
        self.facade = Facade::fresh(configuration).expect("the configuration is in range");
    }

    /// Puts a record of a known kind and takes the step. The first one that
    /// does not fit ends the script.
    fn put_raw(&mut self, raw: RawStep) {
        if self.full || self.script.len() + record_length(&raw) > self.limit {
            self.full = true;
            return;
        }
        push_record(&mut self.script, &raw);
        // A refused step leaves the facade as it is.
        let _ = self.facade.step(&raw);
    }

    fn put(&mut self, step: Step) {
        self.put_raw(step.raw());
    }

    /// Lets time pass, then every server hears that every other is alive.
    fn round(&mut self, d: Tick) {
        self.put(Step::Pass { d, party: 0, e: 0 });
        let servers = self.facade.servers.len();
        for server in 0..servers {
            for about in (0..servers).filter(|&about| about != server) {
                self.put(Step::Notice { server, about, alive: true });
            }
        }
    }

    /// Rounds until every address is led and its first record is past.
    fn settle(&mut self) {
        let [detection, margin] = [self.facade.detection(), 2 * self.facade.skew()];
        for d in [detection, detection, margin.max(1), self.facade.mclt() + 2 * margin + 1] {
            self.round(d);
        }
    }

    /// What the client can ask for in its state.
    fn ask(&mut self, client: usize) {
        let wanted = self.facade.time + 3 * self.facade.mclt();
        self.put(match self.facade.clients[client] {
            Client::Offered { .. } => Step::Request { client, wanted },
            Client::Holding { .. } => Step::Renew { client, wanted },
            _ => Step::Discover { client },
        });
    }
}

const FEW: Configuration = Configuration {
    servers: 2,
    clients: 1,
    addresses: 1,
    skew: 1,
    detection: 60,
    mclt: 50,
    retention: 20,
};

/// One client is lent the one address and renews it without end; every
/// message is delivered at once.
fn few_parties(maker: &mut Maker) {
    maker.begin(FEW);
    maker.settle();
    while !maker.full {
        maker.ask(0);
        while !maker.full && !maker.facade.waiting.is_empty() {
            maker.put(Step::Deliver { position: 0, keep: false });
        }
        maker.round(10);
    }
}

const MANY: Configuration = Configuration {
    servers: 4,
    clients: 32,
    addresses: 32,
    skew: 10,
    detection: 10_000,
    mclt: 5_000,
    retention: 500,
};

/// Messages that wait all the time, about this many.
const CROWD: usize = 100;

/// So many that what a step sends may not find room.
const NEARLY_FULL: usize = 125;

fn many_parties(maker: &mut Maker) {
    crowded(maker, CROWD);
}

fn nearly_full(maker: &mut Maker) {
    crowded(maker, NEARLY_FULL);
}

/// 32 clients and 32 addresses, with messages delivered in any order.
fn crowded(maker: &mut Maker, crowd: usize) {
    maker.begin(MANY);
    maker.settle();
    while !maker.full {
        let waiting = maker.facade.waiting.len();
        match maker.random.below(100) {
            0..2 => maker.round(200),
            2..3 => {
                let server = maker.random.below(4);
                maker.put(Step::Cleanup { server });
            }
            _ if waiting < crowd => {
                let client = pressing_client(maker);
                maker.ask(client);
            }
            _ => {
                let position = maker.random.below(waiting);
                maker.put(Step::Deliver { position, keep: false });
            }
        }
    }
}

/// An offered client if there is one, else an idle or holding one, else any.
fn pressing_client(maker: &mut Maker) -> usize {
    let rank = |client: &Client| match client {
        Client::Offered { .. } => 0,
        Client::Idle | Client::Holding { .. } => 1,
        _ => 2,
    };
    let start = maker.random.below(maker.facade.clients.len());
    let count = maker.facade.clients.len();
    let clients = (0..count).map(|index| (start + index) % count);
    clients.min_by_key(|&client| rank(&maker.facade.clients[client])).unwrap_or(0)
}

/// With a full list, nine of ten records are refused, each for another
/// reason in turn; the tenth is a notice.
fn mostly_refused(maker: &mut Maker) {
    maker.begin(MANY);
    maker.settle();
    for client in 0..MOST_WAITING / 4 {
        maker.put(Step::Discover { client });
    }
    while !maker.full {
        for raw in refused() {
            maker.put_raw(raw);
        }
        let server = maker.random.below(4);
        maker.put(Step::Notice { server, about: (server + 1) % 4, alive: true });
    }
}

/// Refusals 5, 5, 6, 6, 7, 9, 10, 11 and 13 after the start of
/// `mostly_refused`.
fn refused() -> [RawStep; 9] {
    [
        RawStep::new(1, &[0, 0, 0]),
        RawStep::new(8, &[0, 2]),
        RawStep::new(8, &[128, 0]),
        RawStep::new(4, &[1, 1, 1]),
        RawStep::new(7, &[5, 0]),
        RawStep::new(1, &[20, 0, 11]),
        RawStep::new(1, &[10_001, 0, 0]),
        RawStep::new(4, &[0, 1, 0]),
        RawStep::new(5, &[3]),
    ]
}

#[cfg(test)]
mod tests {
    use super::{loads, CROWD, MANY};
    use reference::facade::Facade;
    use reference::script::{verdict, Records, HEADER_LENGTH, LONGEST_SCRIPT};
    use reference::tally::Tally;

    fn tally_of(script: &[u8]) -> Tally {
        let mut tally = Tally::default();
        tally.add(script);
        tally
    }

    #[test]
    fn lengths_and_verdicts() {
        for load in loads() {
            let length = load.script.len();
            match load.name.as_str() {
                "no records" => assert_eq!(length, HEADER_LENGTH),
                name if name.ends_with("tenth") => assert!((6_530..6_554).contains(&length)),
                _ => assert!((LONGEST_SCRIPT - 20..=LONGEST_SCRIPT).contains(&length)),
            }
            let refused = load.name.starts_with("mostly refused");
            assert_eq!(verdict(&load.script), if refused { 5 } else { 0 });
        }
    }

    #[test]
    fn what_is_measured() {
        for load in loads().iter().skip(1) {
            let tally = tally_of(&load.script);
            let records: usize = tally.refusals.iter().sum();
            assert_eq!(records, load.records);
            let accepted = tally.refusals[0];
            if load.name.starts_with("mostly refused") {
                assert!(accepted * 4 < records);
                assert!([5, 6, 7, 9, 10, 11, 13].iter().all(|&r| tally.refusals[r] > 20));
            } else {
                let full = tally.refusals[13];
                assert_eq!(accepted + full, records);
                assert_eq!(full > 0, load.name.starts_with("nearly full"));
                assert!(tally.grants > 0 && tally.completed_writes > 0);
            }
        }
    }

    /// Once the list has filled up, about 100 messages wait all the time.
    #[test]
    fn crowd() {
        let loads = loads();
        let many = loads.iter().find(|load| load.name == "many parties, in full");
        let script = &many.expect("the load is there").script;
        let mut facade = Facade::fresh(MANY).expect("in range");
        let mut counts = Vec::new();
        for step in Records::new(&script[HEADER_LENGTH..]) {
            facade.apply(step.expect("accepted")).expect("accepted");
            counts.push(facade.waiting.len());
        }
        let later = &counts[100..];
        assert!(later.iter().all(|&count| count + 1 >= CROWD));
        let mean = later.iter().sum::<usize>() / later.len();
        assert!((CROWD..CROWD + 10).contains(&mean), "{mean}");
    }
}
