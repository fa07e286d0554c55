//! Makes scripts by running the model while choosing the next step, so that
//! many of them come far.

mod author;
mod damage;
mod edges;
mod mischief;
mod progress;
mod reached;
mod setting;
mod talk;
mod temper;
mod times;

use crate::random::Random;
use crate::script::LONGEST_SCRIPT;
use author::Author;
use temper::Temper;

pub(crate) use edges::edge_lengths;
pub use reached::reached;

/// What a script is meant to show most.
#[derive(Clone, Copy, Debug, PartialEq, Eq)]
pub enum Kind {
    /// Leases granted, renewed and ended, with few refused steps.
    Deep,
    /// The same with servers that fail and return.
    Failover,
    /// The same with clocks at their limits.
    Skewed,
    /// Many waiting messages.
    Crowded,
    /// Many refused steps.
    Refused,
    /// Steps at random, mostly refused.
    Wild,
    /// At most 19 records.
    Short,
    /// Near the longest length.
    Long,
    /// A script with damaged bytes.
    Damaged,
    /// Refusals 1 and 2 and their neighbours.
    Header,
}

/// Kinds with their names and how many of a hundred scripts they are.
pub const KINDS: [(Kind, &str, usize); 10] = [
    (Kind::Deep, "deep", 28),
    (Kind::Failover, "failover", 16),
    (Kind::Skewed, "skewed", 10),
    (Kind::Crowded, "crowded", 10),
    (Kind::Refused, "refused", 6),
    (Kind::Wild, "wild", 2),
    (Kind::Short, "short", 3),
    (Kind::Long, "long", 3),
    (Kind::Damaged, "damaged", 11),
    (Kind::Header, "header", 11),
];

/// The kind with that name.
pub fn kind_named(name: &str) -> Option<Kind> {
    let found = KINDS.iter().find(|(_, known, _)| *known == name)?;
    Some(found.0)
}

/// Script number `index` of the series that the seed starts.
pub fn script(seed: u64, index: u64, kind: Option<Kind>) -> Vec<u8> {
    let mut random = Random::for_script(seed, index);
    let weights = KINDS.map(|(_, _, weight)| weight);
    let drawn = KINDS[random.weighted(&weights)].0;
    match kind.unwrap_or(drawn) {
        Kind::Short => short(random),
        Kind::Long => long(random),
        Kind::Damaged => damaged(random),
        Kind::Header => damage::header(random),
        other => plain(random, other),
    }
}

fn plain(mut random: Random, kind: Kind) -> Vec<u8> {
    let temper = Temper::of(kind, &mut random);
    let configuration = match kind {
        Kind::Wild => setting::any(&mut random),
        _ => setting::deep(&mut random),
    };
    // More servers need more notices before anything is led.
    let least = [20, 90, 170][configuration.servers as usize - 2];
    let wanted = random.between(least, 400) as usize;
    let mut author = Author::new(random, configuration, temper);
    author.write(wanted, LONGEST_SCRIPT);
    author.finish().0
}

fn short(mut random: Random) -> Vec<u8> {
    let kind = random.pick(&[Kind::Deep, Kind::Refused, Kind::Wild]);
    let temper = Temper::of(kind, &mut random);
    let configuration = setting::any(&mut random);
    let wanted = random.below(20);
    let mut author = Author::new(random, configuration, temper);
    author.write(wanted, LONGEST_SCRIPT);
    author.finish().0
}

fn long(mut random: Random) -> Vec<u8> {
    let kind =
        random.pick(&[Kind::Deep, Kind::Failover, Kind::Skewed, Kind::Crowded, Kind::Refused]);
    let temper = Temper::of(kind, &mut random);
    let configuration = setting::deep(&mut random);
    let limit = LONGEST_SCRIPT - random.pick(&[0, 0, 1, 2, 500]);
    let mut author = Author::new(random, configuration, temper);
    author.write(usize::MAX, limit);
    let (script, random) = author.finish();
    damage::lengthen(script, random)
}

fn damaged(mut random: Random) -> Vec<u8> {
    let kind = random.pick(&[Kind::Deep, Kind::Failover, Kind::Crowded, Kind::Refused]);
    let temper = Temper::of(kind, &mut random);
    let configuration = setting::deep(&mut random);
    let wanted = random.between(5, 250) as usize;
    let mut author = Author::new(random, configuration, temper);
    author.write(wanted, LONGEST_SCRIPT);
    let (script, random) = author.finish();
    damage::records(script, random)
}
