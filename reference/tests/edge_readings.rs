//! Rows P1 to P12 of "Readings at the edge": Δ=2, ν=5, μ=50, θ=10.

use reference::facade::{Client, OpenWrite, Reservation, ServerSet, Tick};
use reference::message::{Body, Message};
use reference::{Configuration, Facade, Outcome, Refusal, Step};

/// Clocks exact and every notice given now, so that clocks read true time.
fn facade_at(servers: u32, time: Tick) -> Facade {
    let configuration = Configuration::from_numbers([servers, 2, 3, 2, 5, 50, 10]);
    let mut facade = Facade::fresh(configuration).expect("in range");
    facade.time = time;
    facade.notice_times = [[time; 4]; 4];
    facade.next_interaction = 10;
    facade
}

fn deliver(facade: &mut Facade, from: usize, to: usize, body: Body) -> Outcome {
    facade.waiting.push(Message { from, to, body });
    assert_eq!(facade.check(), Ok(()));
    let position = facade.waiting.len() - 1;
    let step = Step::Deliver { position, keep: false };
    facade.apply(step).expect("not refused")
}

fn request_at(clock: Tick, wanted: Tick) -> (Facade, Outcome) {
    let mut facade = facade_at(3, clock);
    facade.servers[0].entries[0].leads = true;
    facade.servers[0].entries[0].record = 100;
    let body = Body::Request { interaction: 3, address: 0, wanted };
    let outcome = deliver(&mut facade, 3, 0, body);
    (facade, outcome)
}

#[test]
fn p1_p2_record_and_clock() {
    assert_eq!(request_at(104, 0).1, Outcome::NotMet);
    let (facade, outcome) = request_at(105, 0);
    assert_eq!(outcome, Outcome::Done);
    assert_eq!(facade.servers[0].entries[0].lent_end, 155);
}

#[test]
fn p3_p4_begin_to_lead() {
    let begin = |clock, record| {
        let mut facade = facade_at(2, clock);
        facade.servers[0].return_reading = 10;
        facade.servers[0].entries[0].record = record;
        let notice = Step::Notice { server: 0, about: 1, alive: true };
        assert_eq!(facade.apply(notice), Ok(Outcome::Done));
        let entry = facade.servers[0].entries[0];
        (entry.leads, entry.record)
    };
    assert_eq!(begin(23, 60), (false, 60));
    assert_eq!(begin(24, 60), (true, 78));
    assert_eq!(begin(24, 90), (true, 90));
}

#[test]
fn p5_p6_renew() {
    let renew = |clock, lent_end| {
        let mut facade = facade_at(2, clock);
        facade.servers[0].entries[0].leads = true;
        facade.servers[0].entries[0].lent_end = lent_end;
        let body = Body::Renew { interaction: 3, address: 0, old_end: 200, wanted: 0 };
        let outcome = deliver(&mut facade, 2, 0, body);
        (outcome, facade.servers[0].entries[0].lent_end)
    };
    assert_eq!(renew(200, 0), (Outcome::Done, 250));
    assert_eq!(renew(200, 300), (Outcome::Done, 300));
    assert_eq!(renew(201, 0), (Outcome::NotMet, 0));
}

/// P7, and the messages in the order of sending.
#[test]
fn p7_written_end() {
    for (wanted, written) in [(120, 155), (400, 400)] {
        let (facade, _) = request_at(105, wanted);
        let entry = facade.servers[0].entries[0];
        let acknowledged = ServerSet::only(0);
        let write = OpenWrite { interaction: 3, end: written, acknowledged };
        assert_eq!(entry.write, Some(write));
        assert_eq!(entry.record, written);
        let ack = Body::Ack { interaction: 3, address: 0, end: 155 };
        let write = Body::Write { interaction: 3, address: 0, end: written };
        let sent =
            [(3, ack), (1, write), (2, write)].map(|(to, body)| Message { from: 0, to, body });
        assert_eq!(facade.waiting, sent);
    }
}

#[test]
fn p8_cleanup() {
    for (clock, kept) in [(40, true), (41, false)] {
        let mut facade = facade_at(2, clock);
        let reservation = Some(Reservation { interaction: 3, reading: 30 });
        facade.servers[1].entries[2].reservation = reservation;
        assert_eq!(facade.apply(Step::Cleanup { server: 1 }), Ok(Outcome::Done));
        assert_eq!(facade.servers[1].entries[2].reservation.is_some(), kept);
    }
}

#[test]
fn p9_ack() {
    for (clock, outcome) in [(154, Outcome::Done), (155, Outcome::NotMet)] {
        let mut facade = facade_at(2, clock);
        facade.clients[1] = Client::Waiting { interaction: 3, address: 2 };
        let body = Body::Ack { interaction: 3, address: 2, end: 155 };
        assert_eq!(deliver(&mut facade, 0, 3, body), outcome);
        let holding = Client::Holding { address: 2, end: 155, interaction: 3 };
        assert_eq!(facade.clients[1] == holding, outcome == Outcome::Done);
        assert_eq!(facade.held(), usize::from(outcome == Outcome::Done));
    }
    // A hold ends when the clock reaches the end.
    let mut facade = facade_at(2, 153);
    facade.clients[1] = Client::Holding { address: 2, end: 155, interaction: 3 };
    let pass = Step::Pass { d: 1, party: 0, e: 0 };
    assert_eq!((facade.apply(pass), facade.held()), (Ok(Outcome::Done), 1));
    assert_eq!((facade.apply(pass), facade.held()), (Ok(Outcome::Done), 0));
}

#[test]
fn p10_false_notice() {
    for (clock, answer) in [(24, Ok(Outcome::Done)), (25, Err(Refusal::FalseNotice))] {
        for alive in [true, false] {
            let mut facade = facade_at(2, clock);
            facade.servers[1].changed = 20;
            facade.servers[1].alive = alive;
            let notice = Step::Notice { server: 0, about: 1, alive: !alive };
            assert_eq!(facade.apply(notice), answer);
        }
    }
}

#[test]
fn p11_overdue() {
    for (d, answer) in [(5, Ok(Outcome::Done)), (6, Err(Refusal::Overdue))] {
        let mut facade = facade_at(2, 20);
        assert_eq!(facade.apply(Step::Pass { d, party: 3, e: 0 }), answer);
    }
}

#[test]
fn p12_order() {
    let leader_without = |dead: &[usize]| {
        (0..3).find(|&server| {
            let mut facade = facade_at(3, 100);
            for &about in dead.iter().filter(|&&about| about != server) {
                facade.servers[about].alive = false;
                let notice = Step::Notice { server, about, alive: false };
                assert_eq!(facade.apply(notice), Ok(Outcome::Done));
            }
            let about = (server + 1) % 3;
            let alive = !dead.contains(&about);
            let notice = Step::Notice { server, about, alive };
            assert_eq!(facade.apply(notice), Ok(Outcome::Done));
            !dead.contains(&server) && facade.servers[server].entries[1].leads
        })
    };
    assert_eq!(leader_without(&[]), Some(1));
    assert_eq!(leader_without(&[1]), Some(2));
    assert_eq!(leader_without(&[1, 2]), Some(0));
}
