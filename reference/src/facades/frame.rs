//! The numbers within which a facade is made.

use crate::configuration::Configuration;
use crate::facade::{Tick, LAST_INTERACTION, LAST_TIME};
use crate::random::Random;

#[derive(Clone, Copy, Debug)]
pub struct Frame {
    pub configuration: Configuration,
    pub time: Tick,
    pub next_interaction: u32,
    /// How many messages wait.
    pub waiting: usize,
    /// Notices are so new that time may pass.
    pub recent: bool,
}

impl Frame {
    /// All numbers in range, often at an end of it.
    pub fn any(random: &mut Random) -> Frame {
        let configuration = configuration(random);
        let next_interaction = next_interaction(random);
        Frame {
            configuration,
            time: time(random),
            next_interaction,
            waiting: waiting(random, next_interaction),
            recent: random.chance(700),
        }
    }

    pub fn servers(&self) -> usize {
        self.configuration.servers as usize
    }

    pub fn clients(&self) -> usize {
        self.configuration.clients as usize
    }

    pub fn skew(&self) -> Tick {
        self.configuration.skew.into()
    }

    pub fn detection(&self) -> Tick {
        self.configuration.detection.into()
    }

    /// Late enough for every clock to be past a record of 0.
    pub fn at_lendable_time(mut self) -> Frame {
        self.time = self.time.max(3 * self.skew() + 1);
        self
    }

    /// So late that something can be ν ago.
    pub fn at_settled_time(mut self) -> Frame {
        self.time = self.time.max(self.detection());
        self
    }

    /// With some interaction that is used already.
    pub fn with_interactions(mut self) -> Frame {
        self.next_interaction = self.next_interaction.max(2);
        self
    }
}

fn configuration(random: &mut Random) -> Configuration {
    let numbers = [
        random.between(2, 4),
        count(random),
        count(random),
        one_of(random, [25, 35, 25, 15], [(0, 0), (1, 5), (0, 1_000), (1_000, 1_000)]),
        one_of(random, [10, 60, 15, 15], [(1, 1), (2, 30), (1, 10_000), (10_000, 10_000)]),
        one_of(random, [10, 60, 15, 15], [(1, 1), (2, 60), (1, 1_000_000), (1_000_000, 1_000_000)]),
        one_of(random, [15, 55, 15, 15], [(0, 1), (2, 40), (0, 1_000_000), (1_000_000, 1_000_000)]),
    ];
    Configuration::from_numbers(numbers.map(|number| number as u32))
}

/// A number of clients or addresses.
fn count(random: &mut Random) -> i64 {
    one_of(random, [25, 57, 10, 8], [(1, 1), (2, 4), (5, 31), (32, 32)])
}

fn time(random: &mut Random) -> Tick {
    let last = LAST_TIME;
    let spans = [(0, 0), (1, 60), (61, 5_000), (0, last), (last - 50, last)];
    one_of(random, [4, 26, 40, 18, 12], spans)
}

fn next_interaction(random: &mut Random) -> u32 {
    let last = i64::from(LAST_INTERACTION);
    let spans = [(1, 1), (2, 5), (6, 1_000), (1, last), (last, last + 1)];
    one_of(random, [3, 60, 19, 9, 9], spans) as u32
}

fn waiting(random: &mut Random, next_interaction: u32) -> usize {
    if next_interaction == 1 {
        return 0;
    }
    one_of(random, [14, 58, 18, 10], [(0, 0), (1, 6), (7, 40), (124, 128)]) as usize
}

/// A number of one of the spans, which are taken as often as the weights say.
fn one_of<const COUNT: usize>(
    random: &mut Random,
    weights: [usize; COUNT],
    spans: [(i64, i64); COUNT],
) -> i64 {
    let (least, largest) = spans[random.weighted(&weights)];
    random.between(least, largest)
}
