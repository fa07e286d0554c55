//! The flat form of a facade, number by number.

use reference::facade::{Client, Facade, OpenWrite, Reservation, ServerSet};
use reference::facades::case;
use reference::flat::places::LENGTH;
use reference::flat::{answer, facade_in_range, fresh, from_numbers, to_numbers};
use reference::message::{Body, Message};
use reference::Configuration;

const SEED: u64 = 11;

fn configuration() -> Configuration {
    Configuration::from_numbers([3, 6, 5, 7, 50, 20, 30])
}

/// Every number that the tables of the flat form name, once.
#[test]
fn places() {
    let mut facade = Facade::fresh(configuration()).expect("in range");
    facade.time = 900;
    facade.next_interaction = 40;
    facade.offsets[8] = -7;
    facade.notice_times[2][1] = 800;
    let server = &mut facade.servers[1];
    server.alive = false;
    server.changed = 700;
    server.return_reading = 600;
    server.believed_live = ServerSet(0b101);
    let entry = &mut server.entries[4];
    entry.leads = true;
    entry.lent_end = 500;
    entry.record = 400;
    entry.reservation = Some(Reservation { interaction: 11, reading: 300 });
    entry.write = Some(OpenWrite { interaction: 12, end: 200, acknowledged: ServerSet(0b010) });
    facade.clients[1] = Client::Asking { interaction: 13 };
    facade.clients[2] = Client::Offered { interaction: 14, address: 1 };
    facade.clients[3] = Client::Waiting { interaction: 15, address: 2 };
    facade.clients[4] = Client::Holding { address: 3, end: 100, interaction: 16 };
    let message = |from, to, body| Message { from, to, body };
    let [interaction, address, end, wanted, old_end] = [17, 4, 55, 56, 57];
    let address = address as usize;
    let [end, wanted, old_end] = [end, wanted, old_end].map(i64::from);
    facade.waiting = vec![
        message(3, 0, Body::Discover { interaction }),
        message(1, 8, Body::Offer { interaction, address }),
        message(3, 0, Body::Request { interaction, address, wanted }),
        message(4, 2, Body::Renew { interaction, address, old_end, wanted }),
        message(0, 1, Body::Write { interaction, address, end }),
        message(1, 0, Body::WriteAck { interaction, address, end }),
        message(2, 5, Body::Ack { interaction, address, end }),
    ];
    let list = to_numbers(&facade, &vec![0; LENGTH]);
    assert_eq!(list.len(), 2_778);
    assert_eq!(list[..10], [3, 6, 5, 7, 50, 20, 30, 900, 40, 7]);
    assert_eq!(list[10 + 8], 0xffff_fff9);
    assert_eq!(list[46 + 4 * 2 + 1], 800);
    let server = &list[62 + 423..62 + 2 * 423];
    assert_eq!(server[..7], [0, 700, 600, 1, 0, 1, 0]);
    assert_eq!([server[7 + 4], server[39 + 4], server[71 + 4]], [1, 500, 400]);
    assert_eq!(server[103 + 3 * 4..][..3], [1, 11, 300]);
    assert_eq!(server[199 + 7 * 4..][..7], [1, 12, 200, 0, 1, 0, 0]);
    assert_eq!(list[1754..1758], [0, 0, 0, 0]);
    assert_eq!(list[1758..1762], [1, 13, 0, 0]);
    assert_eq!(list[1762..1766], [2, 14, 1, 0]);
    assert_eq!(list[1766..1770], [3, 15, 2, 0]);
    assert_eq!(list[1770..1774], [4, 3, 100, 16]);
    let messages = [
        [3, 0, 17, 1, 0, 0, 0],
        [1, 8, 17, 2, 4, 0, 0],
        [3, 0, 17, 3, 4, 56, 0],
        [4, 2, 17, 4, 4, 57, 56],
        [0, 1, 17, 5, 4, 55, 0],
        [1, 0, 17, 6, 4, 55, 0],
        [2, 5, 17, 7, 4, 55, 0],
    ];
    assert_eq!(list[1882..1882 + 49], messages.concat());
    // All other numbers are 0, but for alive and believed live of servers 0
    // and 2: four each.
    let filled = |numbers: &[u32]| numbers.iter().filter(|&&number| number != 0).count();
    let clients = 2 + 3 + 3 + 4;
    let expected = 10 + 1 + 1 + 4 + 14 + 4 + clients + filled(&messages.concat());
    assert_eq!(filled(server), 4 + 3 + 3 + 4);
    assert_eq!(filled(&list), expected);
    assert_eq!(facade_in_range(&list), Ok(facade));
}

#[test]
fn fresh_facade() {
    let facade = Facade::fresh(configuration()).expect("in range");
    let list = fresh(&configuration());
    assert_eq!(facade_in_range(&list), Ok(facade.clone()));
    assert_eq!(to_numbers(&facade, &list), list);
    // The seven numbers, the next κ, and for all four servers alike: alive,
    // and everyone believed live.
    let filled = list.iter().filter(|&&number| number != 0).count();
    assert_eq!(filled, 7 + 1 + 4 * 5);
}

/// The facade of a list put over that list is the list; put over another one
/// it is still the same facade.
#[test]
fn round_trip() {
    let mut in_range = 0;
    for index in 0..6_000 {
        let list = case(SEED, index).numbers;
        let Ok(facade) = facade_in_range(&list) else {
            continue;
        };
        in_range += 1;
        assert_eq!(to_numbers(&facade, &list), list);
        let other = case(SEED + 1, index).numbers;
        if from_numbers(&other).is_some() {
            let moved = to_numbers(&facade, &other);
            assert_eq!(facade_in_range(&moved), Ok(facade));
        }
    }
    assert!(in_range > 4_000);
}

/// Of a fresh list, how many places code nothing with that number in them.
fn uncoded_places(number: u32) -> usize {
    let list = fresh(&configuration());
    let codes_nothing = |place: &usize| {
        let mut other = list.clone();
        other[*place] = number;
        from_numbers(&other).is_none()
    };
    (0..LENGTH).filter(codes_nothing).count()
}

/// Nothing is reserved, written, asked or sent, so that all numbers of these
/// cases are 0.
#[test]
fn codes_nothing() {
    let flags = 4 * (1 + 4 + 32 + 32 * 4);
    let fields = 4 * 32 * (2 + 2) + 32 * 3 + 128 * 3;
    let stored = 4 * 32 * 2;
    assert_eq!(uncoded_places(0), 0);
    assert_eq!(uncoded_places(1), fields);
    assert_eq!(uncoded_places(2), fields + flags + stored);
    assert_eq!(uncoded_places(4), fields + flags + stored);
    assert_eq!(uncoded_places(5), fields + flags + stored + 32);
    assert_eq!(uncoded_places(7), fields + flags + stored + 32);
    assert_eq!(uncoded_places(8), fields + flags + stored + 32 + 128);
    assert_eq!(uncoded_places(u32::MAX), fields + flags + stored + 32 + 128);
}

/// How many of the numbers after a case it may have.
#[test]
fn fields_of_cases() {
    let had = |place: usize, following: usize, case: u32| {
        let codes = |count: usize| {
            let mut list = fresh(&configuration());
            list[place] = case;
            list[place + 1..][..count].fill(9);
            from_numbers(&list).is_some()
        };
        // Some beginning of the numbers is the case's, the rest is not.
        let most = (0..=following).filter(|&count| codes(count)).max();
        assert!((0..=following).all(|count| codes(count) == (Some(count) <= most)));
        most
    };
    for server in 0..4 {
        for address in 0..32 {
            let start = 62 + 423 * server;
            for place in [start + 103 + 3 * address, start + 199 + 7 * address] {
                let counts = [0, 1, 2].map(|case| had(place, 2, case));
                assert_eq!(counts, [Some(0), Some(2), None]);
            }
        }
    }
    for client in 0..32 {
        let counts = [0, 1, 2, 3, 4, 5].map(|case| had(1754 + 4 * client, 3, case));
        assert_eq!(counts, [Some(0), Some(1), Some(2), Some(2), Some(3), None]);
    }
    for position in 0..128 {
        let place = 1882 + 7 * position + 3;
        let counts = [0, 1, 2, 3, 4, 5, 6, 7, 8].map(|case| had(place, 3, case));
        let known = [0, 0, 1, 2, 3, 2, 2, 2].map(Some);
        assert_eq!(counts[..8], known);
        assert_eq!(counts[8], None);
    }
}

#[test]
fn lengths() {
    let list = fresh(&configuration());
    for length in (0..=2_800).filter(|&length| length != LENGTH) {
        let mut other = list.clone();
        other.resize(length, 0);
        assert_eq!(from_numbers(&other), None);
        if length % 100 == 0 || length.abs_diff(LENGTH) < 3 {
            let refused = answer(&other, [1, 1, 0, 0]);
            assert_eq!((refused.refusal, refused.outcome, refused.facade), (2, 0, other));
        }
    }
    assert_eq!(answer(&list, [1, 1, 0, 0]).refusal, 0);
}

/// Numbers far out of range are refused without more ado.
#[test]
fn wild_counts() {
    let list = fresh(&configuration());
    for place in 0..10 {
        for number in [0, 5, 33, 129, 10_001, 1_000_001, 2_000_000_000, 4_000_000_000, u32::MAX] {
            let mut other = list.clone();
            other[place] = number;
            let given = answer(&other, [11, 0, 0, 0]);
            assert!(given.refusal == 2 || given.refusal == 4, "place {place} number {number}");
            assert_eq!((given.outcome, given.facade), (0, other));
        }
    }
    let mut full = list;
    full[..62].fill(u32::MAX);
    assert_eq!(answer(&full, [1, 1, 0, 0]).refusal, 2);
}
