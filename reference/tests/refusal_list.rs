//! The refusal list once more, each sentence by itself: the first that holds
//! is the one that a step names, for facades and steps of all families.

use std::collections::BTreeMap;

use reference::facade::{Client, Facade};
use reference::facades::case;
use reference::facades::limits::limits;
use reference::facades::rules::{broken, Rules, PAIRS, SINGLE};
use reference::flat::{answer, facade_in_range, fresh, to_numbers};
use reference::message::Body;
use reference::random::Random;

/// The numbers of all sentences of 4 to 13 that hold, from the top.
fn sentences(facade: &Facade, step: [u32; 4]) -> Vec<u8> {
    if !(1..=10).contains(&step[0]) {
        return vec![4];
    }
    let tests: [(u8, bool); 9] = [
        (5, field_outside(step)),
        (6, names_nothing(facade, step)),
        (7, wrong_state(facade, step)),
        (8, step[0] == 1 && facade.time + i64::from(step[1]) > 1_000_000_000),
        (9, step[0] == 1 && wrong_clock(facade, step)),
        (10, step[0] == 1 && overdue(facade, step[1].into())),
        (11, step[0] == 4 && false_notice(facade, step)),
        (12, (step[0] == 5 || step[0] == 7) && facade.next_interaction > 1_000_000),
        (13, waiting_after(facade, step) > 128),
    ];
    tests.into_iter().filter(|(_, holds)| *holds).map(|(number, _)| number).collect()
}

fn field_outside(step: [u32; 4]) -> bool {
    let [kind, first, second, third] = step;
    match kind {
        1 => !(1..=100_000).contains(&first) || !(-2_000..=2_000).contains(&(third as i32)),
        4 => third > 1,
        6 | 7 => second > 2_000_000_000,
        8 => second > 1,
        _ => false,
    }
}

fn names_nothing(facade: &Facade, step: [u32; 4]) -> bool {
    let servers = facade.configuration.servers;
    let clients = facade.configuration.clients;
    let [kind, first, second, _] = step;
    match kind {
        1 => second >= servers + clients,
        2 | 3 | 10 => first >= servers,
        4 => first >= servers || second >= servers || first == second,
        5..=7 => first >= clients,
        _ => first as usize >= facade.waiting.len(),
    }
}

fn wrong_state(facade: &Facade, step: [u32; 4]) -> bool {
    let named = step[1] as usize;
    let server = facade.servers.get(named);
    let client = facade.clients.get(named);
    match step[0] {
        2 | 4 | 10 => server.is_some_and(|server| !server.alive),
        3 => server.is_some_and(|server| server.alive),
        5 => client.is_some_and(|client| matches!(client, Client::Holding { .. })),
        6 => client.is_some_and(|client| !matches!(client, Client::Offered { .. })),
        7 => client.is_some_and(|client| !matches!(client, Client::Holding { .. })),
        _ => false,
    }
}

fn wrong_clock(facade: &Facade, step: [u32; 4]) -> bool {
    let e = i64::from(step[3] as i32);
    let skew = i64::from(facade.configuration.skew);
    let offset = facade.offsets.get(step[2] as usize);
    i64::from(step[1]) + e < 0
        || offset.is_some_and(|offset| offset + e > skew || offset + e < -skew)
}

fn overdue(facade: &Facade, d: i64) -> bool {
    let detection = i64::from(facade.configuration.detection);
    let mut late = false;
    for (server, state) in facade.servers.iter().enumerate() {
        for about in 0..facade.servers.len() {
            let without = facade.time + d - facade.notice_times[server][about];
            late |= state.alive && about != server && without > detection;
        }
    }
    late
}

fn false_notice(facade: &Facade, step: [u32; 4]) -> bool {
    let detection = i64::from(facade.configuration.detection);
    let Some(subject) = facade.servers.get(step[2] as usize) else {
        return false;
    };
    let since = facade.time - subject.changed;
    match step[3] {
        0 => subject.alive && since >= detection,
        1 => !subject.alive && since >= detection,
        _ => false,
    }
}

fn waiting_after(facade: &Facade, step: [u32; 4]) -> usize {
    let waiting = facade.waiting.len();
    let removed = match step[0] {
        8 => usize::from(step[2] == 0),
        9 => 1,
        _ => 0,
    };
    match step[0] {
        5..=7 => waiting + facade.servers.len(),
        8 | 9 if step[1] as usize >= waiting => waiting,
        8 => waiting - removed + sent(facade, step[1] as usize),
        _ => waiting - removed,
    }
}

/// How many messages the handling sends.
fn sent(facade: &Facade, position: usize) -> usize {
    let message = facade.waiting[position];
    let Some(server) = facade.servers.get(message.to).filter(|server| server.alive) else {
        return 0;
    };
    let clock = facade.time + facade.offsets[message.to];
    let margin = 2 * i64::from(facade.configuration.skew);
    let count = facade.servers.len();
    match message.body {
        Body::Discover { .. } => {
            let mut entries = server.entries.iter();
            let free = entries.any(|entry| {
                entry.leads && entry.reservation.is_none() && entry.record + margin < clock
            });
            usize::from(free)
        }
        Body::Request { address, .. } => {
            let entry = server.entries[address];
            count * usize::from(entry.leads && entry.record + margin < clock)
        }
        Body::Renew { address, old_end, .. } => {
            count * usize::from(server.entries[address].leads && old_end >= clock)
        }
        Body::Write { .. } => 1,
        _ => 0,
    }
}

#[test]
fn first_that_holds() {
    let mut together: BTreeMap<(u8, u8), usize> = BTreeMap::new();
    for index in 0..40_000 {
        let case = case(31, index);
        let refusal = answer(&case.numbers, case.step).refusal;
        let Ok(facade) = facade_in_range(&case.numbers) else {
            assert_eq!(refusal, 2);
            continue;
        };
        let holding = sentences(&facade, case.step);
        assert_eq!(refusal, holding.first().copied().unwrap_or(0), "{index}: {holding:?}");
        for (place, &first) in holding.iter().enumerate() {
            for &second in &holding[place + 1..] {
                *together.entry((first, second)).or_insert(0) += 1;
            }
        }
    }
    let possible =
        PAIRS.iter().flat_map(|(_, pairs)| pairs.iter()).filter(|pair| **pair != [5, 11]);
    for &[first, second] in possible {
        let count = together.get(&(first, second)).copied().unwrap_or(0);
        assert!(count >= 20, "{first} and {second} together {count} times");
    }
}

/// What is made to break rules breaks them, and no rule above.
#[test]
fn rules_are_broken() {
    let mut random = Random::new(3);
    let mut check = |kind: u32, rules: &[u8]| {
        for _ in 0..60 {
            let (facade, step) = broken(&mut random, kind, Rules(rules));
            assert_eq!(facade.check(), Ok(()), "{kind} {rules:?}");
            assert_eq!(step[0], kind);
            let holding = sentences(&facade, step);
            assert_eq!(holding.first(), rules.first(), "{kind} {rules:?} {holding:?}");
            // A says that is no flag says neither dead nor alive.
            let asked = rules.iter().filter(|&&rule| rule != 11 || rules[0] != 5);
            assert!(asked.clone().all(|rule| holding.contains(rule)), "{kind} {rules:?}");
        }
    };
    for (kind, rules) in SINGLE {
        check(kind, &[]);
        rules.iter().for_each(|&rule| check(kind, &[rule]));
    }
    for (kind, pairs) in PAIRS {
        pairs.iter().for_each(|pair| check(kind, pair));
    }
}

/// Every number at the ends of its range and one past them. Of the counts and
/// of Δ it depends on others whether an end is in range.
#[test]
fn ends_of_ranges() {
    let mut sorts: BTreeMap<(&str, usize), usize> = BTreeMap::new();
    for index in 0..1_500 {
        let Ok(facade) = facade_in_range(&case(41, index).numbers) else {
            continue;
        };
        let list = to_numbers(&facade, &fresh(&facade.configuration));
        let limits = limits(&facade);
        for limit in limits.iter().skip(index as usize % 7).step_by(7) {
            *sorts.entry(limit.sort).or_insert(0) += 1;
            let in_range = |number: i64| {
                let mut other = list.clone();
                other[limit.place] = number as u32;
                facade_in_range(&other).is_ok()
            };
            let name = limit.sort;
            assert!(!in_range(limit.least - 1), "{name:?} below");
            assert!(!in_range(limit.largest + 1), "{name:?} above");
            let depends = matches!(name, ("configuration", 0..=3) | ("waiting count", _));
            assert!(depends || in_range(limit.least), "{name:?} least");
            assert!(depends || in_range(limit.largest), "{name:?} largest");
        }
    }
    // Of the configuration and counts, times, servers, reservations and
    // writes, clients; of messages the parties and κ, address, end and τ.
    assert_eq!(sorts.len(), 12 + 3 + 7 + 4 + 8 + 7 * 3 + 6 + 5 + 1, "{sorts:?}");
    assert!(sorts.values().all(|&count| count >= 20), "{sorts:?}");
}
