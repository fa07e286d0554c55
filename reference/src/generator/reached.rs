//! Facades on the way of a script.

use super::author::Author;
use super::temper::Temper;
use super::{setting, Kind};
use crate::facade::Facade;
use crate::random::Random;
use crate::script::LONGEST_SCRIPT;
use crate::step::Step;

/// The facade after some records, and the step that the author takes next.
pub fn reached(mut random: Random) -> (Facade, Step) {
    let kinds = [Kind::Deep, Kind::Failover, Kind::Skewed, Kind::Crowded, Kind::Refused];
    let kind = random.pick(&kinds);
    let temper = Temper::of(kind, &mut random);
    let configuration = setting::deep(&mut random);
    let records = random.between(0, 300) as usize;
    let mut author = Author::new(random, configuration, temper);
    author.write(records, LONGEST_SCRIPT);
    let step = author.progress();
    (author.facade, step)
}
