//! Rows of the paper, by one server or one client on its own: Δ=2, ν=5, μ=50, θ=10.

use hoyllaqe::firmware::{
    self, clean_up, come_back, discover, pass_time, receive_message, receive_reply, renew,
    take_notice, Device, Done, CLIENT, MESSAGE, SERVER,
};
use hoyllaqe::Refusal;

const CONFIGURATION: [u32; 7] = [2, 1, 1, 2, 5, 50, 10];

// Places in a server's numbers, of address 0.
const ALIVE: usize = 0;
const LEADS: usize = 7;
const LENT: usize = 39;
const RECORD: usize = 71;

fn at(reading: u32) -> Device<'static> {
    Device { configuration: &CONFIGURATION, number: 0, reading }
}

/// A live server that leads address 0 with record 100.
fn leader() -> [u32; SERVER] {
    let mut server = [0; SERVER];
    server[ALIVE] = 1;
    server[LEADS] = 1;
    server[RECORD] = 100;
    server
}

/// A request of client 0, party 2, in interaction 1, for address 0 until τ.
fn request(wanted: u32) -> [u32; MESSAGE] {
    [2, 0, 1, 3, 0, wanted, 0]
}

#[test]
fn p1_the_record_has_not_passed() {
    let mut server = leader();
    let done = receive_message(at(104), &mut server, &request(120)).unwrap();
    assert_eq!((done.outcome, done.sent[0], server), (1, 0, leader()));
}

#[test]
fn p2_and_p7_the_address_is_lent() {
    for (wanted, written) in [(120, 155), (400, 400)] {
        let mut server = leader();
        let done = receive_message(at(105), &mut server, &request(wanted)).unwrap();
        assert_eq!((done.outcome, server[LENT], server[RECORD]), (0, 155, written));
        // The ack with the lent end to the client, then a write to the other server.
        assert_eq!(done.sent[..8], [2, 0, 2, 1, 7, 0, 155, 0]);
        assert_eq!(done.sent[8..15], [0, 1, 1, 5, 0, written, 0]);
    }
}

#[test]
fn p9_a_hold_until_155() {
    let holding: [u32; CLIENT] = [4, 0, 155, 1];
    for (reading, after) in [(154, holding), (155, [0; CLIENT])] {
        let mut client = holding;
        let done = pass_time(at(reading), &mut client).unwrap();
        assert_eq!((done.outcome, client), (0, after));
    }
}

/// The first message that was sent.
fn first(done: &Done) -> [u32; MESSAGE] {
    done.sent[1..8].try_into().unwrap()
}

#[test]
fn p3_and_p4_a_server_begins_to_lead() {
    for (reading, leads, record) in [(23, 0, 60), (24, 1, 78)] {
        let mut server = leader();
        (server[2], server[LEADS], server[RECORD]) = (10, 0, 60);
        (server[3], server[4]) = (1, 1);
        take_notice(at(reading), &mut server, 1, true).unwrap();
        assert_eq!((server[LEADS], server[RECORD]), (leads, record));
    }
}

#[test]
fn p5_a_renewal_until_250() {
    let mut client = [4, 0, 200, 1];
    let done = renew(at(200), &mut client, 100, 2).unwrap();
    assert_eq!((done.outcome, done.sent[0], client), (0, 2, [4, 0, 200, 2]));
    let mut server = leader();
    let done = receive_message(at(200), &mut server, &first(&done)).unwrap();
    assert_eq!((done.outcome, server[LENT]), (0, 250));
    let done = receive_reply(at(200), &mut client, &first(&done)).unwrap();
    assert_eq!((done.outcome, client), (0, [4, 0, 250, 2]));
}

#[test]
fn p8_a_reservation_at_30() {
    const RESERVATION: usize = 103;
    for (reading, kept) in [(40, [1, 1, 30]), (41, [0, 0, 0])] {
        let mut server = leader();
        server[RESERVATION..RESERVATION + 3].copy_from_slice(&[1, 1, 30]);
        clean_up(at(reading), &mut server).unwrap();
        assert_eq!(server[RESERVATION..RESERVATION + 3], kept);
    }
}

#[test]
fn a_client_asks_and_takes_an_offer() {
    let mut client = [0; CLIENT];
    let done = discover(at(105), &mut client, 1).unwrap();
    assert_eq!((done.sent[0], client), (2, [1, 1, 0, 0]));
    let mut server = leader();
    let done = receive_message(at(105), &mut server, &first(&done)).unwrap();
    receive_reply(at(105), &mut client, &first(&done)).unwrap();
    assert_eq!(client, [2, 1, 0, 0]);
    let done = firmware::request(at(105), &mut client, 120).unwrap();
    assert_eq!((first(&done), client), (request(120), [3, 1, 0, 0]));
}

#[test]
fn records_survive_a_return() {
    let mut server = leader();
    come_back(at(300), &mut server).unwrap();
    assert_eq!((server[ALIVE], server[2], server[LEADS], server[RECORD]), (1, 300, 0, 100));
}

#[test]
fn what_codes_nothing_is_refused() {
    let mut server = leader();
    server[LEADS] = 2;
    let before = server;
    assert_eq!(receive_message(at(105), &mut server, &request(120)), Err(Refusal(2)));
    assert_eq!(server, before);
}

/// The device with another number.
fn numbered(number: u32) -> Device<'static> {
    Device { number, ..at(105) }
}

/// What a call with a client in this state is refused with; the client is as it was.
fn refused(state: [u32; CLIENT], call: impl Fn(&mut [u32]) -> Result<Done, Refusal>) -> u32 {
    let mut client = state;
    let refusal = call(&mut client).err().map_or(0, |Refusal(number)| number);
    assert!(refusal == 0 || client == state);
    refusal
}

const IDLE: [u32; CLIENT] = [0; CLIENT];
const OFFERED: [u32; CLIENT] = [2, 1, 0, 0];
const HOLDING: [u32; CLIENT] = [4, 0, 155, 1];

#[test]
fn a_client_is_refused_by_number() {
    for (state, interaction, refusal) in [
        (IDLE, 0, 2),
        (IDLE, 1_000_000, 0),
        (IDLE, 1_000_001, 12),
        (IDLE, u32::MAX, 12),
        (HOLDING, 0, 2),
        (HOLDING, 1_000_001, 7),
    ] {
        assert_eq!(refused(state, |client| discover(at(105), client, interaction)), refusal);
    }
    for (number, state, wanted, refusal) in [
        (0, OFFERED, 2_000_000_000, 0),
        (0, OFFERED, 2_000_000_001, 5),
        (1, IDLE, 2_000_000_001, 5),
        (1, IDLE, 120, 6),
        (0, IDLE, 120, 7),
    ] {
        let call = |client: &mut [u32]| firmware::request(numbered(number), client, wanted);
        assert_eq!(refused(state, call), refusal);
    }
    for (state, interaction, refusal) in [
        (HOLDING, 0, 2),
        (HOLDING, 1_000_000, 0),
        (HOLDING, 1_000_001, 12),
        (OFFERED, 1_000_001, 7),
    ] {
        assert_eq!(refused(state, |client| renew(at(105), client, 120, interaction)), refusal);
    }
    assert_eq!(refused(HOLDING, |client| pass_time(numbered(1), client)), 6);
}

#[test]
fn a_server_is_refused_by_number() {
    for (number, about) in [(0, 0), (0, 2), (2, 1), (u32::MAX, 1)] {
        assert_eq!(take_notice(numbered(number), &mut leader(), about, true), Err(Refusal(6)));
    }
    assert_eq!(come_back(numbered(2), &mut leader()), Err(Refusal(6)));
    assert_eq!(clean_up(numbered(2), &mut leader()), Err(Refusal(6)));
    let late = Device { reading: 1_000_001_001, ..numbered(2) };
    assert_eq!(clean_up(late, &mut leader()), Err(Refusal(2)));
    // Whether it is alive is not tested.
    let mut dead = leader();
    dead[ALIVE] = 0;
    assert!(take_notice(at(105), &mut dead, 1, true).is_ok());
}

/// An offer of address 0, from server 0 to a party.
fn offer(receiver: u32) -> [u32; MESSAGE] {
    [0, receiver, 1, 2, 0, 0, 0]
}

#[test]
fn a_message_for_another_party_is_refused_first() {
    let asking = [1, 1, 0, 0];
    for (number, receiver, refusal) in [(0, 2, 0), (0, 3, 2), (1, 2, 2), (1, 3, 2)] {
        let call = |client: &mut [u32]| receive_reply(numbered(number), client, &offer(receiver));
        assert_eq!(refused(asking, call), refusal);
    }
    // To server 1. The party number of this client, 4,294,967,297, is 1 in 32 bits.
    let discover = [2, 1, 1, 1, 0, 0, 0];
    let call = |client: &mut [u32]| receive_reply(numbered(u32::MAX), client, &discover);
    assert_eq!(refused(asking, call), 2);
    // Party 2 is a client: an offer to it is for that number, but there is no such server.
    for (number, refusal) in [(1, 2), (2, 6)] {
        let taken = receive_message(numbered(number), &mut leader(), &offer(2));
        assert_eq!(taken, Err(Refusal(refusal)));
    }
}
