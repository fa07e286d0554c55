//! Steps for a given facade, mostly such that they may be taken.

use crate::facade::{Client, Facade, Tick, LAST_TIME};
use crate::generator::edge_lengths;
use crate::random::Random;
use crate::step::{Step, LARGEST_E, LARGEST_END, LONGEST_PASS};

/// A step as its kind and three fields.
pub fn numbers(step: Step) -> [u32; 4] {
    let raw = step.raw();
    let [first, second, third] = raw.fields;
    [raw.kind.into(), first, second, third]
}

/// A step that the facade takes, if a few tries find one.
pub fn accepted(random: &mut Random, facade: &Facade) -> Step {
    let mut step = any(random, facade);
    for _ in 0..8 {
        if facade.clone().apply(step).is_ok() {
            break;
        }
        step = any(random, facade);
    }
    step
}

/// Any step with fields in range. What it names mostly exists and is in the
/// right state.
pub fn any(random: &mut Random, facade: &Facade) -> Step {
    match random.weighted(&[12, 5, 8, 14, 8, 8, 8, 27, 5, 5]) {
        0 => pass(random, facade),
        1 => Step::Fail { server: some_server(random, facade, true) },
        2 => Step::Return { server: some_server(random, facade, false) },
        3 => notice(random, facade),
        4 => {
            let free = |client: &Client| !matches!(client, Client::Holding { .. });
            Step::Discover { client: some_client(random, facade, free) }
        }
        5 => {
            let offered = |client: &Client| matches!(client, Client::Offered { .. });
            let client = some_client(random, facade, offered);
            Step::Request { client, wanted: wanted(random, facade) }
        }
        6 => {
            let holding = |client: &Client| matches!(client, Client::Holding { .. });
            let client = some_client(random, facade, holding);
            Step::Renew { client, wanted: wanted(random, facade) }
        }
        7 => Step::Deliver { position: position(random, facade), keep: random.chance(400) },
        8 => Step::Lose { position: position(random, facade) },
        _ => Step::Cleanup { server: some_server(random, facade, true) },
    }
}

/// How far true time may pass without refusals 8 and 10.
fn slack(facade: &Facade) -> Tick {
    let count = facade.servers.len();
    let live = (0..count).filter(|&server| facade.servers[server].alive);
    let times = live.flat_map(|server| {
        let others = (0..count).filter(move |&about| about != server);
        others.map(move |about| facade.notice_times[server][about])
    });
    let limits = times.map(|time| time + facade.detection() - facade.time);
    limits.min().unwrap_or(LONGEST_PASS.into()).min(LAST_TIME - facade.time)
}

pub fn pass(random: &mut Random, facade: &Facade) -> Step {
    let parties = facade.offsets.len();
    let party = if random.chance(970) { random.below(parties) } else { parties };
    let e = match random.weighted(&[50, 40, 10]) {
        0 => 0,
        _ if party == parties => 0,
        // Mostly to a limit, now and then past it.
        1 => {
            let skew = facade.skew();
            let inside = random.between(-skew, skew);
            random.pick(&[-skew, skew, inside]) - facade.offsets[party]
        }
        _ => {
            let beyond = facade.skew() + 1;
            random.pick(&[-beyond, beyond]) - facade.offsets[party]
        }
    };
    let most = Tick::from(LARGEST_E);
    let e = e.clamp(-most, most);
    let limit = slack(facade).clamp(1, LONGEST_PASS.into());
    let edges = edge_lengths(facade, limit, party, e);
    let d = match random.weighted(&[25, 30, 10, 15, 12, 8]) {
        0 => limit,
        1 if !edges.is_empty() => random.pick(&edges),
        1 | 2 => random.between(1, limit),
        3 => -e,
        4 => -e - 1,
        _ => limit + 1,
    };
    Step::Pass { d: d.clamp(1, LONGEST_PASS.into()), party, e }
}

/// Mostly true, or false and early enough.
pub fn notice(random: &mut Random, facade: &Facade) -> Step {
    let count = facade.servers.len();
    let server = some_server(random, facade, true);
    let about = if random.chance(960) && server < count {
        (server + 1 + random.below(count - 1)) % count
    } else {
        random.below(count + 1)
    };
    let truth = facade.servers.get(about).is_none_or(|subject| subject.alive);
    Step::Notice { server, about, alive: truth != random.chance(400) }
}

/// A true notice about another server.
pub fn notice_to(random: &mut Random, facade: &Facade, server: usize) -> Step {
    let count = facade.servers.len();
    let about = (server + 1 + random.below(count - 1)) % count;
    Step::Notice { server, about, alive: facade.servers[about].alive }
}

/// Mostly one with that life.
fn some_server(random: &mut Random, facade: &Facade, alive: bool) -> usize {
    let fitting: Vec<usize> =
        (0..facade.servers.len()).filter(|&server| facade.servers[server].alive == alive).collect();
    some(random, &fitting, facade.servers.len())
}

/// Mostly one in such a state.
fn some_client(random: &mut Random, facade: &Facade, fits: impl Fn(&Client) -> bool) -> usize {
    let fitting: Vec<usize> =
        (0..facade.clients.len()).filter(|&client| fits(&facade.clients[client])).collect();
    some(random, &fitting, facade.clients.len())
}

/// One of these, or any below the count, or the count.
fn some(random: &mut Random, fitting: &[usize], count: usize) -> usize {
    match random.weighted(&[87, 10, 3]) {
        0 if !fitting.is_empty() => random.pick(fitting),
        0 | 1 => random.below(count),
        _ => count,
    }
}

fn position(random: &mut Random, facade: &Facade) -> usize {
    let waiting = facade.waiting.len();
    match random.weighted(&[30, 50, 17, 3]) {
        0 => 0,
        1 => random.below(waiting),
        2 => waiting.saturating_sub(1),
        _ => waiting,
    }
}

fn wanted(random: &mut Random, facade: &Facade) -> Tick {
    let largest = Tick::from(LARGEST_END);
    let any = random.between(0, largest);
    random.pick(&[0, 1, facade.time, facade.time + facade.mclt(), any, largest])
}
