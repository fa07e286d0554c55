//! How a script's author leans.

use super::Kind;
use crate::random::Random;

/// Chances are per thousand, weights are against the others in `progress`.
#[derive(Clone, Copy, Debug)]
pub struct Temper {
    /// Chance of a step that is meant to be refused.
    pub mischief: usize,
    /// Chance that a refused step is one of random fields.
    pub mixed: usize,
    /// Chance that a delivered message is kept.
    pub keep: usize,
    /// Chance of a false notice where one is taken.
    pub lie: usize,
    /// Weight of a notice that turns a belief over.
    pub flap: usize,
    /// Chance of a notice where time could pass.
    pub gossip: usize,
    /// Chance that a pass moves an offset.
    pub drift: usize,
    /// Chance that a wanted end is far off.
    pub far: usize,
    /// How many ν a wanted end is off at most, if it is not far off.
    pub stretch: usize,
    /// Weight of a fail.
    pub fail: usize,
    /// Servers fail only while a client holds for long, and ends are wanted
    /// that are far enough off for that.
    pub patient: bool,
    /// Weight of a return, where a server is dead.
    pub restore: usize,
    /// Weight of a lost message.
    pub lose: usize,
    /// So many waiting messages keep clients quiet.
    pub crowd: usize,
    /// Time waits for messages and clients, so that many come to hold.
    pub haste: bool,
    /// Weight of further client steps, until the list is full.
    pub flood: usize,
}

impl Temper {
    const CALM: Temper = Temper {
        mischief: 25,
        mixed: 150,
        keep: 60,
        lie: 30,
        flap: 1,
        gossip: 100,
        drift: 150,
        far: 10,
        stretch: 5,
        fail: 1,
        patient: false,
        restore: 4,
        lose: 3,
        crowd: 12,
        haste: false,
        flood: 0,
    };

    pub fn of(kind: Kind, random: &mut Random) -> Temper {
        let patient = random.chance(500);
        let calm = Temper {
            mischief: random.pick(&[0, 15, 40]),
            keep: random.pick(&[20, 60, 250]),
            far: random.pick(&[0, 10, 80]),
            stretch: if patient { 20 } else { random.pick(&[3, 5, 20]) },
            fail: if patient { 1 } else { random.pick(&[0, 1, 1]) },
            patient,
            crowd: random.pick(&[6, 12, 25, 60]),
            haste: random.pick(&[false, false, true]),
            ..Temper::CALM
        };
        match kind {
            Kind::Failover => Temper {
                fail: random.pick(&[1, 3]),
                restore: random.pick(&[3, 8, 20]),
                lie: random.pick(&[30, 200, 400]),
                flap: random.pick(&[1, 5, 20]),
                gossip: random.pick(&[100, 400]),
                stretch: random.pick(&[20, 30, 100]),
                ..calm
            },
            Kind::Skewed => Temper { drift: random.pick(&[600, 950]), mischief: 40, ..calm },
            Kind::Crowded => Temper {
                keep: random.pick(&[200, 500, 800]),
                crowd: 200,
                flood: random.pick(&[15, 40, 70]),
                mischief: 60,
                lose: random.pick(&[1, 10]),
                ..calm
            },
            Kind::Refused => Temper {
                mischief: 400,
                fail: 3,
                keep: 200,
                crowd: random.pick(&[12, 200]),
                flood: random.pick(&[0, 0, 50]),
                ..calm
            },
            Kind::Wild => Temper { mischief: 850, mixed: 800, ..calm },
            _ => calm,
        }
    }
}
