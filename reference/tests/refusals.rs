//! Refusals 2 and 6 to 13 on facades handed in, with what stands above first.

use reference::facade::{Client, Facade, OpenWrite, Reservation, ServerSet};
use reference::message::{Body, Message};
use reference::{Configuration, RawStep};

fn fresh() -> Facade {
    let configuration = Configuration::from_numbers([3, 2, 2, 10, 50, 20, 30]);
    let mut facade = Facade::fresh(configuration).expect("in range");
    facade.next_interaction = 5;
    facade
}

/// The number of the answer; a refused step must leave the facade.
fn number(facade: &Facade, kind: u8, fields: &[u32]) -> u8 {
    let mut next = facade.clone();
    let answer = next.step(&RawStep::new(kind, fields));
    if answer.is_err() {
        assert_eq!(next, *facade);
    }
    answer.err().map_or(0, |refusal| refusal.number())
}

fn full(facade: &mut Facade, count: usize) {
    let body = Body::Discover { interaction: 1 };
    facade.waiting = vec![Message { from: 3, to: 0, body }; count];
}

#[test]
fn order_of_refusals() {
    let mut facade = fresh();
    facade.servers[2].alive = false;
    assert_eq!(number(&facade, 0, &[]), 4);
    assert_eq!(number(&facade, 11, &[9, 9, 9]), 4);
    assert_eq!(number(&facade, 1, &[0, 9, 0]), 5);
    assert_eq!(number(&facade, 1, &[100_001, 0, 0]), 5);
    assert_eq!(number(&facade, 1, &[1, 9, 2_001]), 5);
    assert_eq!(number(&facade, 1, &[1, 5, -2_000i32 as u32]), 6);
    assert_eq!(number(&facade, 1, &[1, 4, -2_000i32 as u32]), 9);
    assert_eq!(number(&facade, 1, &[100_000, 4, 11]), 9);
    assert_eq!(number(&facade, 1, &[100_000, 4, 10]), 10);
    assert_eq!(number(&facade, 1, &[50, 4, -10i32 as u32]), 0);
    assert_eq!(number(&facade, 1, &[10, 4, -10i32 as u32]), 0);
    assert_eq!(number(&facade, 1, &[9, 4, -10i32 as u32]), 9);
    assert_eq!(number(&facade, 4, &[0, 0, 2]), 5);
    assert_eq!(number(&facade, 4, &[0, 0, 1]), 6);
    assert_eq!(number(&facade, 4, &[2, 2, 1]), 6);
    assert_eq!(number(&facade, 4, &[2, 0, 1]), 7);
    assert_eq!(number(&facade, 4, &[0, 3, 1]), 6);
    assert_eq!(number(&facade, 3, &[0]), 7);
    assert_eq!(number(&facade, 2, &[2]), 7);
    assert_eq!(number(&facade, 10, &[2]), 7);
    assert_eq!(number(&facade, 6, &[2, 2_000_000_001]), 5);
    assert_eq!(number(&facade, 6, &[2, 2_000_000_000]), 6);
    assert_eq!(number(&facade, 6, &[1, 2_000_000_000]), 7);
    assert_eq!(number(&facade, 7, &[1, 0]), 7);
    assert_eq!(number(&facade, 8, &[0, 2]), 5);
    assert_eq!(number(&facade, 8, &[0, 1]), 6);
    assert_eq!(number(&facade, 9, &[0]), 6);
}

#[test]
fn last_time_and_interaction() {
    let mut facade = fresh();
    facade.time = 999_999_990;
    facade.notice_times = [[999_999_990; 4]; 4];
    assert_eq!(number(&facade, 1, &[10, 0, 0]), 0);
    assert_eq!(number(&facade, 1, &[11, 0, -12i32 as u32]), 8);
    facade.next_interaction = 1_000_000;
    facade.clients[0] = Client::Holding { address: 0, end: 1_500_000_000, interaction: 1 };
    assert_eq!(number(&facade, 5, &[1]), 0);
    assert_eq!(number(&facade, 7, &[0, 0]), 0);
    facade.next_interaction = 1_000_001;
    assert_eq!(number(&facade, 5, &[0]), 7);
    full(&mut facade, 128);
    assert_eq!(number(&facade, 5, &[1]), 12);
    assert_eq!(number(&facade, 7, &[0, 0]), 12);
}

#[test]
fn full_list() {
    let mut facade = fresh();
    facade.time = 100;
    facade.clients[1] = Client::Offered { interaction: 2, address: 1 };
    full(&mut facade, 125);
    assert_eq!(number(&facade, 5, &[0]), 0);
    full(&mut facade, 126);
    assert_eq!(number(&facade, 5, &[0]), 13);
    assert_eq!(number(&facade, 6, &[1, 0]), 13);
    full(&mut facade, 128);
    // Nothing is led: the discover sends nothing.
    assert_eq!(number(&facade, 8, &[127, 1]), 0);
    facade.servers[0].entries[0].leads = true;
    assert_eq!(number(&facade, 8, &[127, 1]), 13);
    assert_eq!(number(&facade, 8, &[127, 0]), 0);
    facade.servers[0].alive = false;
    assert_eq!(number(&facade, 8, &[127, 1]), 0);
}

/// A request that would send too much leaves its reservation too.
#[test]
fn full_list_keeps_reservations() {
    let mut facade = fresh();
    facade.time = 100;
    full(&mut facade, 126);
    facade.servers[0].entries[0].leads = true;
    facade.servers[0].entries[1].reservation = Some(Reservation { interaction: 2, reading: 90 });
    let body = Body::Request { interaction: 2, address: 0, wanted: 0 };
    facade.waiting[0] = Message { from: 3, to: 0, body };
    assert_eq!(number(&facade, 8, &[0, 1]), 13);
    assert_eq!(number(&facade, 8, &[0, 0]), 0);
    facade.servers[0].entries[0].leads = false;
    let mut next = facade.clone();
    assert!(next.step(&RawStep::new(8, &[0, 1])).is_ok());
    assert_eq!(next.servers[0].entries[1].reservation, None);
}

#[test]
fn facade_handed_in() {
    type Change = fn(&mut Facade);
    let outside: [Change; 22] = [
        |facade| facade.configuration.servers = 5,
        |facade| facade.time = 1_000_000_001,
        |facade| facade.time = -1,
        |facade| facade.offsets[4] = 11,
        |facade| facade.offsets[0] = -1,
        |facade| facade.next_interaction = 0,
        |facade| facade.next_interaction = 1_000_002,
        |facade| full(facade, 129),
        |facade| facade.servers[1].changed = 1,
        |facade| facade.servers[1].return_reading = 1_000_001_001,
        |facade| facade.servers[1].believed_live = ServerSet(8),
        |facade| facade.notice_times[2][1] = 1,
        |facade| facade.servers[1].entries[1].lent_end = 2_000_000_001,
        |facade| facade.servers[1].entries[1].record = -1,
        |facade| {
            let reservation = Reservation { interaction: 5, reading: 0 };
            facade.servers[1].entries[1].reservation = Some(reservation);
        },
        |facade| {
            let acknowledged = ServerSet::all(4);
            let write = OpenWrite { interaction: 1, end: 0, acknowledged };
            facade.servers[0].entries[0].write = Some(write);
        },
        |facade| facade.clients[0] = Client::Asking { interaction: 0 },
        |facade| facade.clients[0] = Client::Offered { interaction: 1, address: 2 },
        |facade| {
            facade.clients[0] = Client::Holding { address: 0, end: 2_000_000_001, interaction: 1 }
        },
        |facade| {
            full(facade, 1);
            facade.waiting[0].from = 0;
        },
        |facade| {
            full(facade, 1);
            facade.waiting[0].to = 3;
        },
        |facade| {
            full(facade, 1);
            facade.waiting[0].from = 5;
        },
    ];
    assert_eq!(number(&fresh(), 1, &[1, 0, 0]), 0);
    for (index, change) in outside.iter().enumerate() {
        let mut facade = fresh();
        change(&mut facade);
        assert_eq!(number(&facade, 11, &[]), 2, "change {index}");
    }
}
