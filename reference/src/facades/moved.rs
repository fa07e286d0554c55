//! Steps of time and of servers that break given rules.

use super::frame::Frame;
use super::paint::paint;
use super::rules::{bad_flag, beyond, Rules};
use crate::facade::{Facade, Tick, LAST_TIME};
use crate::random::Random;

const LONGEST_BACK: Tick = 2_000;

pub fn pass(random: &mut Random, rules: Rules) -> (Facade, [u32; 4]) {
    let mut frame = Frame::any(random);
    if rules.has(10) {
        frame = frame.at_settled_time();
    }
    // A clock can go back only from a short pass.
    let longest = if rules.has(9) { frame.detection().min(1_999) } else { frame.detection() };
    let inside = random.between(1, longest);
    let d = random.pick(&[1, inside, longest]);
    frame.time = if rules.has(8) {
        let inside = random.between(LAST_TIME - d + 1, LAST_TIME);
        random.pick(&[LAST_TIME - d + 1, inside])
    } else {
        frame.time.min(LAST_TIME - d)
    };
    let mut facade = paint(random, &frame);
    give_notices(random, &mut facade, d, rules.has(10));
    let party = random.below(facade.offsets.len());
    let e = clock_change(random, &facade, party, d, rules);
    let (d, e) = if rules.has(5) { bad_length(random, d, e, rules) } else { (d as u32, e) };
    let party = if rules.has(6) { beyond(random, facade.offsets.len()) } else { party as u32 };
    (facade, [1, d, party, e as i32 as u32])
}

/// Notices that are new enough for a pass of length d, but for one if one is
/// to be overdue.
fn give_notices(random: &mut Random, facade: &mut Facade, d: Tick, overdue: bool) {
    let oldest = facade.time + d - facade.detection();
    let earliest = oldest.max(0);
    let count = facade.servers.len();
    for server in 0..count {
        for about in (0..count).filter(|&about| about != server) {
            let inside = random.between(earliest, facade.time);
            facade.notice_times[server][about] = random.pick(&[earliest, inside, facade.time]);
        }
    }
    if overdue {
        let server = random.below(count);
        let about = (server + 1 + random.below(count - 1)) % count;
        let inside = random.between(0, oldest - 1);
        facade.servers[server].alive = true;
        facade.notice_times[server][about] = random.pick(&[oldest - 1, oldest - 1, inside]);
    }
}

/// An e that keeps the clock right, or one for refusal 9.
fn clock_change(random: &mut Random, facade: &Facade, party: usize, d: Tick, rules: Rules) -> Tick {
    let skew = facade.skew();
    let offset = facade.offsets[party];
    if !rules.has(9) {
        let inside = random.between(-skew, skew);
        let e = random.pick(&[-skew, skew, inside, offset, offset]) - offset;
        return e.max(-d);
    }
    let back = -d - 1;
    let far_back = random.between(-LONGEST_BACK, back);
    let e = random.pick(&[back, far_back, skew + 1 - offset, -skew - 1 - offset]);
    // Nothing else is wrong with the clock of a party that does not exist.
    if rules.has(6) || e.abs() > LONGEST_BACK {
        back
    } else {
        e
    }
}

/// A d or e for refusal 5 that breaks the other rule too.
fn bad_length(random: &mut Random, d: Tick, e: Tick, rules: Rules) -> (u32, Tick) {
    let long = random.pick(&[100_001, 100_001, 1 << 31, u32::MAX]);
    let far = random.pick(&[2_001, -2_001, i32::MIN.into(), i32::MAX.into()]);
    match random.below(3) {
        0 if !rules.has(9) => (long, e),
        1 if rules.has(9) => (0, -1),
        1 if !rules.has(8) && !rules.has(10) => (0, e.max(0)),
        _ if rules.has(9) => (d as u32, random.pick(&[-2_001, i32::MIN.into()])),
        _ => (d as u32, far),
    }
}

pub fn notice(random: &mut Random, rules: Rules) -> (Facade, [u32; 4]) {
    let mut frame = Frame::any(random);
    if rules.has(11) {
        frame = frame.at_settled_time();
    }
    let mut facade = paint(random, &frame);
    let count = facade.servers.len();
    let mut server = random.below(count);
    let mut about = (server + 1 + random.below(count - 1)) % count;
    facade.servers[server].alive = !rules.has(7);
    let mut names_itself = false;
    if rules.has(6) {
        match random.below(3) {
            0 if !rules.has(7) => server = beyond(random, count) as usize,
            1 if !rules.has(11) => about = beyond(random, count) as usize,
            _ => names_itself = true,
        }
    }
    if names_itself {
        about = server;
    }
    let alive = facade.servers.get(about).is_none_or(|subject| subject.alive);
    let says = alive != (rules.has(11) || random.chance(300));
    if about < count {
        facade.servers[about].changed = change_time(random, &facade, says == alive, rules);
    }
    let says = if rules.has(5) { bad_flag(random, says.into()) } else { says.into() };
    (facade, [4, server as u32, about as u32, says])
}

/// Of the server that the notice is about.
fn change_time(random: &mut Random, facade: &Facade, is_true: bool, rules: Rules) -> Tick {
    let time = facade.time;
    let settled = time - facade.detection();
    if rules.has(11) {
        let inside = random.between(0, settled);
        random.pick(&[settled, settled, inside])
    } else if is_true {
        random.between(0, time)
    } else {
        let latest = (settled + 1).max(0);
        let inside = random.between(latest, time);
        random.pick(&[latest, latest, inside])
    }
}

/// A fail, return or cleanup.
pub fn server_step(random: &mut Random, kind: u32, rules: Rules) -> (Facade, [u32; 4]) {
    let frame = Frame::any(random);
    let mut facade = paint(random, &frame);
    let server = random.below(facade.servers.len());
    facade.servers[server].alive = (kind != 3) != rules.has(7);
    let named = if rules.has(6) { beyond(random, facade.servers.len()) } else { server as u32 };
    (facade, [kind, named, 0, 0])
}
