//! What becomes of the unused places of a flat list.

mod lists;

use lists::{changes, list_at, send, taken, DELIVER, KEEP};
use reference::facade::Facade;
use reference::facades::case;
use reference::flat::{answer, facade_in_range, fresh, places, to_numbers};
use reference::generator::script;
use reference::script::{read_header, Records, HEADER_LENGTH};
use reference::Refusal;

/// A list in which every unused place holds something.
fn littered(servers: u32, time: u32) -> Vec<u32> {
    let mut list = list_at(servers, time);
    let used = servers as usize;
    for server in 0..4 {
        list[places::notice_time(server, server)] = 4_000_000_000 + server as u32;
        for other in used..4 {
            list[places::notice_time(server, other)] = u32::MAX;
            list[places::notice_time(other, server)] = u32::MAX;
        }
        for address in 3..32 {
            list[places::led(server, address)] = 1;
            list[places::lent_end(server, address)] = 3_000_000_000;
            list[places::record(server, address)] = 3_000_000_001;
            let place = places::reservation(server, address);
            list[place..place + 3].copy_from_slice(&[1, 0, u32::MAX]);
            let place = places::write(server, address);
            list[place..place + 7].copy_from_slice(&[1, u32::MAX, u32::MAX, 1, 0, 1, 0]);
        }
        for address in 0..3 {
            // Nothing is open: all four flags are unused.
            list[places::acknowledged(server, address, 0)..][..4].fill(1);
        }
    }
    for position in 1..128 {
        let place = places::message(position);
        list[place..place + 7].copy_from_slice(&[99, 98, 97, 4, 96, 95, 94]);
    }
    list[places::offset(used + 2)..places::offset(36)].fill(77);
    list
}

/// A return resets all places of what it clears, and nothing else.
#[test]
fn unused_places_of_a_return() {
    let mut list = littered(2, 200);
    list[places::alive(1)] = 0;
    list[places::believed(1, 0)..][..4].fill(0);
    list[places::record(1, 2)] = 33;
    let mut expected = list.clone();
    expected[places::alive(1)] = 1;
    expected[places::changed(1)] = 200;
    expected[places::return_reading(1)] = 200;
    expected[places::believed(1, 0)..][..4].fill(1);
    expected[places::notice_time(1, 0)..][..4].fill(200);
    expected[places::led(1, 0)..][..32].fill(0);
    expected[places::lent_end(1, 0)..][..32].fill(0);
    expected[places::reservation(1, 0)..][..96].fill(0);
    expected[places::write(1, 0)..][..224].fill(0);
    let given = answer(&list, [3, 1, 0, 0]);
    assert_eq!((given.refusal, given.outcome), (0, 0));
    assert_eq!(given.facade, expected);
}

/// A write that opens or closes sets all four flags.
#[test]
fn unused_places_of_a_write() {
    let mut list = littered(2, 200);
    list[places::led(1, 2)] = 1;
    send(&mut list, [2, 1, 3, 3, 2, 0, 0]);
    let opened = answer(&list, DELIVER);
    assert_eq!((opened.refusal, opened.outcome), (0, 0));
    let mut expected = list.clone();
    expected[places::lent_end(1, 2)] = 250;
    expected[places::record(1, 2)] = 250;
    expected[places::write(1, 2)..][..7].copy_from_slice(&[1, 3, 250, 0, 1, 0, 0]);
    expected[places::WAITING] = 2;
    expected[places::message(0)..][..7].copy_from_slice(&[1, 2, 3, 7, 2, 250, 0]);
    expected[places::message(1)..][..7].copy_from_slice(&[1, 0, 3, 5, 2, 250, 0]);
    assert_eq!(opened.facade, expected);

    // The flags from S on do not count, and a repeated ack leaves them.
    let mut list = opened.facade;
    list[places::acknowledged(1, 2, 2)..][..2].fill(1);
    send(&mut list, [1, 1, 3, 6, 2, 250, 0]);
    assert_eq!(changes(&list, KEEP), taken(0, &[]));
    // The ack of the other server closes the write.
    send(&mut list, [0, 1, 3, 6, 2, 250, 0]);
    let closed = answer(&list, DELIVER);
    let mut expected = list.clone();
    expected[places::write(1, 2)..][..7].fill(0);
    expected[places::WAITING] = 0;
    expected[places::message(0)..][..7].fill(0);
    assert_eq!(closed.facade, expected);
}

/// A removal closes the gap and empties the last waiting place only.
#[test]
fn unused_places_of_a_removal() {
    let mut list = littered(2, 200);
    list[places::WAITING] = 3;
    for (position, interaction) in [(0, 4), (1, 5), (2, 6)] {
        let message = [2, 0, interaction, 1, 0, 0, 0];
        list[places::message(position)..][..7].copy_from_slice(&message);
    }
    let mut expected = list.clone();
    expected[places::WAITING] = 2;
    expected[places::message(1) + 2] = 6;
    expected[places::message(2)..][..7].fill(0);
    assert_eq!(answer(&list, [9, 1, 0, 0]).facade, expected);
    // Nothing is led: the discover is taken out and has outcome 1.
    let given = answer(&list, [8, 1, 0, 0]);
    assert_eq!((given.outcome, given.facade), (1, expected));
}

/// Which places of the facade's list are not the facade's.
fn unused_places(facade: &Facade) -> Vec<usize> {
    let zeros = to_numbers(facade, &[0; places::LENGTH]);
    let nines = to_numbers(facade, &[9; places::LENGTH]);
    (0..places::LENGTH).filter(|&place| zeros[place] != nines[place]).collect()
}

/// What a step may do to places that are unused before and after it.
#[test]
fn unused_places_of_any_step() {
    let mut changed = [0; 11];
    for index in 0..20_000 {
        let case = case(5, index);
        let given = answer(&case.numbers, case.step);
        if given.refusal != 0 {
            assert_eq!(given.facade, case.numbers);
            continue;
        }
        let after = facade_in_range(&given.facade).expect("a step leaves the facade in range");
        let before = facade_in_range(&case.numbers).expect("the step was taken");
        let waiting = before.waiting.len();
        let server = places::alive(case.step[1].min(3) as usize);
        for place in unused_places(&after) {
            let (was, is) = (case.numbers[place], given.facade[place]);
            if was == is {
                continue;
            }
            changed[case.step[0] as usize] += 1;
            let last = places::message(waiting.wrapping_sub(1) % 128);
            match case.step[0] {
                3 if (46..62).contains(&place) => assert_eq!(is, after.time as u32),
                3 if (server + 3..server + 7).contains(&place) => assert_eq!(is, 1),
                3 => {
                    assert!((server + 7..server + 71).contains(&place) || place >= server + 103);
                    assert!(place < server + 423);
                    assert_eq!(is, 0);
                }
                8 if place < places::client(0) => {
                    let row = places::write(before.waiting[case.step[1] as usize].to, 0);
                    assert!((row..row + 224).contains(&place) && (place - row) % 7 >= 3);
                    assert_eq!(is, 0);
                }
                8 | 9 => assert!((last..last + 7).contains(&place) && is == 0),
                kind => panic!("kind {kind} changed place {place}"),
            }
        }
    }
    assert!(changed[3] > 1_000 && changed[8] > 1_000 && changed[9] > 1_000, "{changed:?}");
}

/// Scripts taken step by step: the rig's way gives the same as flat lists.
#[test]
fn scripts_on_flat_lists() {
    let mut steps = 0;
    for index in 0..150 {
        let script = script(21, index, None);
        let Ok(configuration) = read_header(&script) else {
            continue;
        };
        let mut facade = Facade::fresh(configuration).expect("in range");
        let mut list = fresh(&configuration);
        for step in Records::new(&script[HEADER_LENGTH..]).flatten().take(400) {
            steps += 1;
            let raw = step.raw();
            let [first, second, third] = raw.fields;
            let given = answer(&list, [raw.kind.into(), first, second, third]);
            let expected = facade.apply(step);
            assert_eq!(given.refusal, expected.err().map_or(0, Refusal::number));
            assert_eq!(given.outcome, expected.map_or(0, |outcome| outcome.number()));
            list = given.facade;
            assert_eq!(facade_in_range(&list).as_ref(), Ok(&facade));
        }
        check_fresh_places(&facade, &list);
    }
    assert!(steps > 10_000);
}

/// From a fresh list on, unused places stay as fresh, but for the returns'
/// times about the servers themselves.
fn check_fresh_places(facade: &Facade, list: &[u32]) {
    let fresh = fresh(&facade.configuration);
    for place in unused_places(facade).into_iter().filter(|place| !(46..62).contains(place)) {
        assert_eq!(list[place], fresh[place], "place {place}");
    }
}
