//! Rows P1 to P12 of "Readings at the edge" on flat lists, with every number
//! that changes.

mod lists;

use lists::{changes, list_at, send, taken, DELIVER, KEEP};
use reference::flat::{answer, places};

const EMPTY: [u32; 7] = [0; 7];

/// What changes where a message is put into a place that held another.
fn put(place: usize, before: [u32; 7], after: [u32; 7]) -> Vec<(usize, u32)> {
    let numbers = (0..7).filter(|&index| before[index] != after[index]);
    numbers.map(|index| (places::message(place) + index, after[index])).collect()
}

/// Server 0 leads address 0 with record 100, and client 0 requests it.
fn request_at(clock: u32, wanted: u32) -> (Vec<u32>, [u32; 7]) {
    let mut list = list_at(3, clock);
    list[places::led(0, 0)] = 1;
    list[places::record(0, 0)] = 100;
    let request = [3, 0, 3, 3, 0, wanted, 0];
    send(&mut list, request);
    (list, request)
}

#[test]
fn p1_not_past() {
    let (list, request) = request_at(104, 0);
    let mut expected = vec![(places::WAITING, 0)];
    expected.extend(put(0, request, EMPTY));
    assert_eq!(changes(&list, DELIVER), taken(1, &expected));
    assert_eq!(changes(&list, KEEP), taken(1, &[]));
}

/// P2 and P7: lent until 155, and the larger of that and τ is written.
#[test]
fn p2_p7_lent() {
    for (wanted, written) in [(0, 155), (120, 155), (400, 400)] {
        let (list, request) = request_at(105, wanted);
        let ack = [0, 3, 3, 7, 0, 155, 0];
        let writes = [1, 2].map(|to| [0, to, 3, 5, 0, written, 0]);
        let mut expected = vec![
            (places::lent_end(0, 0), 155),
            (places::record(0, 0), written),
            (places::write(0, 0), 1),
            (places::write(0, 0) + 1, 3),
            (places::write(0, 0) + 2, written),
            (places::acknowledged(0, 0, 0), 1),
        ];
        let mut kept = expected.clone();
        expected.push((places::WAITING, 3));
        for (place, message) in [ack, writes[0], writes[1]].into_iter().enumerate() {
            let before = if place == 0 { request } else { EMPTY };
            expected.extend(put(place, before, message));
        }
        assert_eq!(changes(&list, DELIVER), taken(0, &expected));
        kept.push((places::WAITING, 4));
        for (place, message) in [ack, writes[0], writes[1]].into_iter().enumerate() {
            kept.extend(put(place + 1, EMPTY, message));
        }
        assert_eq!(changes(&list, KEEP), taken(0, &kept));
    }
}

#[test]
fn p3_p4_begin_to_lead() {
    let begin = |clock, record| {
        let mut list = list_at(2, clock);
        list[places::return_reading(0)] = 10;
        list[places::record(0, 0)] = record;
        // Servers 0 and 1 are first of addresses 0 and 1, and 0 of 2.
        list[places::record(0, 2)] = 1_000;
        changes(&list, [4, 0, 1, 1])
    };
    let led = [(places::led(0, 0), 1), (places::led(0, 2), 1)];
    assert_eq!(begin(23, 60), taken(0, &[]));
    assert_eq!(begin(24, 60), taken(0, &[led[0], led[1], (places::record(0, 0), 78)]));
    assert_eq!(begin(24, 90), taken(0, &led));
}

#[test]
fn p5_p6_renew() {
    let renew = |clock, lent_end| {
        let mut list = list_at(2, clock);
        list[places::led(0, 0)] = 1;
        list[places::lent_end(0, 0)] = lent_end;
        list[places::record(0, 0)] = 900;
        send(&mut list, [2, 0, 3, 4, 0, 200, 0]);
        let given = answer(&list, KEEP);
        let ack = places::message(1);
        (given.outcome, given.facade[places::lent_end(0, 0)], given.facade[ack..][..7].to_vec())
    };
    assert_eq!(renew(200, 0), (0, 250, vec![0, 2, 3, 7, 0, 250, 0]));
    assert_eq!(renew(200, 300), (0, 300, vec![0, 2, 3, 7, 0, 300, 0]));
    assert_eq!(renew(201, 0), (1, 0, EMPTY.to_vec()));
}

#[test]
fn p8_cleanup() {
    let cleanup = |clock| {
        let mut list = list_at(2, clock);
        let place = places::reservation(1, 2);
        list[place..place + 3].copy_from_slice(&[1, 3, 30]);
        changes(&list, [10, 1, 0, 0])
    };
    let place = places::reservation(1, 2);
    assert_eq!(cleanup(40), taken(0, &[]));
    assert_eq!(cleanup(41), taken(0, &[(place, 0), (place + 1, 0), (place + 2, 0)]));
}

#[test]
fn p9_ack() {
    let ack = |clock| {
        let mut list = list_at(2, clock);
        let client = places::client(1);
        list[client..client + 4].copy_from_slice(&[3, 3, 2, 0]);
        send(&mut list, [0, 3, 3, 7, 2, 155, 0]);
        changes(&list, KEEP)
    };
    // From waiting (κ 3, address 2) to holding (address 2, end 155, κ 3).
    let client = places::client(1);
    let held = [(client, 4), (client + 1, 2), (client + 2, 155), (client + 3, 3)];
    assert_eq!(ack(154), taken(0, &held));
    assert_eq!(ack(155), taken(1, &[]));
}

#[test]
fn p10_p11_notices() {
    for alive in [0, 1] {
        let notice = |clock| {
            let mut list = list_at(2, clock);
            list[places::changed(1)] = 20;
            list[places::alive(1)] = alive;
            // Too early to lead anything.
            list[places::return_reading(0)] = clock;
            list[places::notice_time(0, 1)] = 20;
            list[places::believed(0, 1)] = alive;
            changes(&list, [4, 0, 1, 1 - alive])
        };
        let told = [(places::notice_time(0, 1), 24), (places::believed(0, 1), 1 - alive)];
        assert_eq!(notice(24), taken(0, &told));
        assert_eq!(notice(25), Err(11));
    }
    let list = list_at(2, 20);
    assert_eq!(changes(&list, [1, 5, 3, 0]), taken(0, &[(places::TIME, 25)]));
    assert_eq!(changes(&list, [1, 6, 3, 0]), Err(10));
}

/// Of S=3 and address 1 the order is 1, 2, 0.
#[test]
fn p12_order() {
    for (believed, leader) in [([1, 1, 1, 0], 1), ([1, 0, 1, 0], 2), ([1, 0, 0, 0], 0)] {
        for server in 0..3 {
            let mut list = list_at(3, 100);
            list[places::believed(server, 0)..][..4].copy_from_slice(&believed);
            let about = (0..3).find(|&about| about != server && about != leader);
            let about = about.expect("there are three");
            list[places::alive(about)] = believed[about];
            let given = answer(&list, [4, server as u32, about as u32, believed[about]]);
            assert_eq!(given.refusal, 0);
            let leads = given.facade[places::led(server, 1)] == 1;
            assert_eq!(leads, server == leader, "{believed:?} {server}");
        }
    }
}
