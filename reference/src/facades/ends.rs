//! True time, interaction numbers, clocks and passes at their ends.

use super::frame::Frame;
use super::paint::{paint, Painter};
use super::{ground, plant, steps};
use crate::facade::{Client, Facade, Tick, LAST_INTERACTION, LAST_TIME};
use crate::flat::to_numbers;
use crate::random::Random;
use crate::step::{Step, LARGEST_E};

pub fn make(random: &mut Random) -> (Vec<u32>, [u32; 4]) {
    let frame = Frame::any(random).with_interactions();
    let (facade, step) = match random.weighted(&[35, 33, 20, 12]) {
        0 => last_pass(random, frame),
        1 => last_interaction(random, frame),
        2 => largest_clocks(random, frame),
        _ => longest_pass(random, frame),
    };
    (to_numbers(&facade, &ground::any(random)), steps::numbers(step))
}

/// A pass to the last time, one tick less or one more (refusal 8).
fn last_pass(random: &mut Random, mut frame: Frame) -> (Facade, Step) {
    let far = random.between(1, frame.detection());
    let left = random.pick(&[0, 1, 1, 2, far, far]);
    frame.time = LAST_TIME - left;
    let mut facade = paint(random, &frame);
    if random.chance(850) {
        facade.notice_times = [[frame.time; 4]; 4];
    }
    let d = (left + random.pick(&[-1, 0, 0, 1, 1, 2])).max(1);
    let party = random.below(facade.offsets.len());
    let offset = facade.offsets[party];
    let skew = facade.skew();
    let e = random.pick(&[0, 0, skew - offset, -skew - offset, skew + 1 - offset]);
    let most = Tick::from(LARGEST_E);
    (facade, Step::Pass { d, party, e: e.clamp(-most, most) })
}

/// A discover or renew with the last interaction, the one before it, or none
/// left (refusal 12).
fn last_interaction(random: &mut Random, mut frame: Frame) -> (Facade, Step) {
    frame.next_interaction = LAST_INTERACTION + random.pick(&[0, 0, 1, 1]);
    if random.chance(150) {
        frame.next_interaction = LAST_INTERACTION - 1;
    }
    if random.chance(700) {
        frame.waiting = frame.waiting.min(124);
    }
    let mut facade = paint(random, &frame);
    let client = random.below(facade.clients.len());
    let end = facade.time + random.between(0, 100);
    let interaction = random.pick(&[1, frame.next_interaction - 1]);
    let holding = Client::Holding { address: 0, end, interaction };
    let asking = Client::Asking { interaction };
    if random.chance(500) {
        facade.clients[client] = if random.chance(900) { holding } else { asking };
        (facade, Step::Renew { client, wanted: random.between(0, 1_000) })
    } else {
        facade.clients[client] = if random.chance(900) { asking } else { holding };
        (facade, Step::Discover { client })
    }
}

/// At the last time with clocks as far ahead as may be, so that what is
/// stored comes near its largest.
fn largest_clocks(random: &mut Random, frame: Frame) -> (Facade, Step) {
    let mut frame = plant::plantable(frame);
    frame.time = LAST_TIME - random.pick(&[0, 0, 1]);
    frame.configuration.skew = random.pick(&[999, 1_000, 1_000]);
    frame.configuration.mclt = random.pick(&[1, 1_000_000, 1_000_000]);
    let mut facade = paint(random, &frame);
    let ahead = facade.skew();
    facade.offsets.fill(ahead);
    if random.chance(500) {
        let position = random.below(facade.waiting.len());
        let kind = random.below(7);
        Painter { random: &mut *random, facade: &mut facade }.plant(position, kind);
        return (facade, Step::Deliver { position, keep: random.chance(500) });
    }
    let step = steps::accepted(random, &facade);
    (facade, step)
}

/// All servers are dead, so that only the fields limit a pass; a clock goes
/// from one end of its range to the other.
fn longest_pass(random: &mut Random, mut frame: Frame) -> (Facade, Step) {
    frame.configuration.skew = 1_000;
    frame.time = frame.time.max(1_000);
    let mut facade = paint(random, &frame);
    facade.servers.iter_mut().for_each(|server| server.alive = false);
    let party = random.below(facade.offsets.len());
    let side = random.pick(&[-1, 1]);
    facade.offsets[party] = -1_000 * side;
    let d = random.pick(&[1_999, 2_000, 99_999, 100_000, 100_001]);
    let e = side * random.pick(&[1_999, 2_000, 2_000, 2_001]);
    (facade, Step::Pass { d, party, e })
}
