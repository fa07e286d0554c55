//! "A holding client that receives an ack shall keep the later of its own end
//! and the new one. A waiting client takes the end it gets. An ack whose end
//! is not above the client's clock is still outcome 1." (C-11)

mod lists;

use lists::{changes, list_at, send, taken, Changes, DELIVER, KEEP};
use reference::facade::{Client, Tick};
use reference::flat::{answer, places};
use reference::message::{Body, Message};
use reference::script::{read_header, Records, HEADER_LENGTH};
use reference::{text, Facade, Outcome, Step};

const CLOCK: u32 = 100;

/// Client 1, party 3, in that state, and an ack to it of κ 3 for address 2.
fn list_with(client: [u32; 4], end: u32) -> Vec<u32> {
    let mut list = list_at(2, CLOCK);
    list[places::client(1)..][..4].copy_from_slice(&client);
    send(&mut list, [0, 3, 3, 7, 2, end, 0]);
    list
}

/// What the ack changes besides the messages.
fn ack(client: [u32; 4], end: u32) -> Changes {
    changes(&list_with(client, end), KEEP)
}

/// Taken, and the client has this end now.
fn new_end(end: u32) -> Changes {
    taken(0, &[(places::client(1) + 2, end)])
}

/// Holding address 2 until then, last with κ 3.
fn holding(end: u32) -> [u32; 4] {
    [4, 2, end, 3]
}

#[test]
fn the_later_end_is_kept() {
    assert_eq!(ack(holding(300), 101), taken(0, &[]));
    assert_eq!(ack(holding(300), 250), taken(0, &[]));
    assert_eq!(ack(holding(300), 299), taken(0, &[]));
    assert_eq!(ack(holding(300), 300), taken(0, &[]));
    assert_eq!(ack(holding(300), 301), new_end(301));
    assert_eq!(ack(holding(2_000_000_000), 250), taken(0, &[]));
    assert_eq!(ack(holding(300), 2_000_000_000), new_end(2_000_000_000));
}

/// Also where the own end is later.
#[test]
fn a_late_ack_changes_nothing() {
    for own_end in [0, 60, 100, 101, 300, 2_000_000_000] {
        for end in [0, 99, 100] {
            assert_eq!(ack(holding(own_end), end), taken(1, &[]), "{own_end} {end}");
        }
    }
    assert_eq!(ack([3, 3, 2, 0], 100), taken(1, &[]));
}

#[test]
fn a_waiting_client_takes_the_end_it_gets() {
    let client = places::client(1);
    for end in [101, 150] {
        let held = [(client, 4), (client + 1, 2), (client + 2, end), (client + 3, 3)];
        assert_eq!(ack([3, 3, 2, 0], end), taken(0, &held));
    }
}

/// A facade handed in may have a hold that no pass has ended yet.
#[test]
fn a_hold_that_is_over_gets_the_new_end() {
    for own_end in [0, 60, 99, 100] {
        for end in [101, 150] {
            assert_eq!(ack(holding(own_end), end), new_end(end), "{own_end}");
        }
    }
}

/// With another κ or address the ack is not for this hold.
#[test]
fn another_hold_is_left_alone() {
    for client in [[4, 2, 300, 4], [4, 1, 300, 3], [4, 2, 60, 4], [4, 1, 60, 3]] {
        for end in [150, 350] {
            assert_eq!(ack(client, end), taken(1, &[]), "{client:?}");
        }
    }
}

/// The message is taken out also where the client keeps what it has.
#[test]
fn the_ack_is_used_up() {
    let list = list_with(holding(300), 250);
    let given = answer(&list, DELIVER);
    assert_eq!((given.refusal, given.outcome), (0, 0));
    assert_eq!(given.facade[places::WAITING], 0);
    assert_eq!(given.facade[places::client(1)..][..4], holding(300));
}

#[test]
fn a_renewal_quotes_the_kept_end() {
    for (end, quoted) in [(250, 300), (300, 300), (350, 350)] {
        let after = answer(&list_with(holding(300), end), DELIVER).facade;
        let renewed = answer(&after, [7, 1, 120, 0]);
        assert_eq!(renewed.refusal, 0);
        for server in 0..2 {
            let message = [3, server, 10, 4, 2, quoted, 120];
            assert_eq!(renewed.facade[places::message(server as usize)..][..7], message);
        }
    }
}

/// Server 0 lends until 100 and fails; server 1 takes charge, and lends μ = 4
/// ticks to a renewal.
const TAKEN_OVER: &str = "
facade servers=2 clients=1 addresses=1 skew=0 detection=5 mclt=4 retention=10
pass 5 0 0
notice 0 1 alive
notice 1 0 alive
pass 5 0 0
notice 0 1 alive
notice 1 0 alive
pass 5 0 0
discover 0
deliver 0 0
deliver 1 0
request 0 100
deliver 1 0
deliver 2 0    # the ack: held until 19
deliver 2 0    # the write
deliver 2 0    # its write ack: lent until 100
renew 0 0
deliver 2 0
deliver 3 0    # the ack: held until 100
fail 0
notice 1 0 dead
renew 0 0
deliver 5 0    # server 1 lends until 19
";

/// Takes the steps of a text, all of which are accepted.
fn run(lines: &str) -> Facade {
    let script = text::pack(lines).expect("the text is right");
    let mut facade = read_header(&script).and_then(Facade::fresh).expect("in range");
    for step in Records::new(&script[HEADER_LENGTH..]) {
        facade.apply(step.expect("the record is right")).expect("accepted");
    }
    facade
}

fn holds_until(facade: &Facade) -> Option<Tick> {
    match facade.clients[0] {
        Client::Holding { end, .. } => Some(end),
        _ => None,
    }
}

#[test]
fn a_server_that_just_took_charge_cuts_nothing_short() {
    let mut facade = run(TAKEN_OVER);
    let ack = Body::Ack { interaction: 3, address: 0, end: 19 };
    assert_eq!(facade.waiting[5], Message { from: 1, to: 2, body: ack });
    assert_eq!(holds_until(&facade), Some(100));
    let given = facade.apply(Step::Deliver { position: 5, keep: false });
    assert_eq!(given, Ok(Outcome::Done));
    assert_eq!(holds_until(&facade), Some(100));
    // At 20 the end of the ack is over, and the client still holds.
    let passed = facade.apply(Step::Pass { d: 5, party: 0, e: 0 });
    assert_eq!((passed, facade.held()), (Ok(Outcome::Done), 1));
}
