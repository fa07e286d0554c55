//! Which numbers of a flat list are flags, and which choose a case.

use crate::flat::places::{self, ADDRESSES, CLIENTS, MESSAGES, SERVERS};
use crate::random::Random;

/// A number that chooses a case, and the numbers after it.
#[derive(Clone, Copy, Debug)]
pub struct Choice {
    pub place: usize,
    pub form: &'static Form,
}

/// By case, how many of the numbers that follow it has; the others are 0.
#[derive(Debug)]
pub struct Form {
    pub following: usize,
    pub fields: &'static [usize],
}

static STORED: Form = Form { following: 2, fields: &[0, 2] };
static CLIENT: Form = Form { following: 3, fields: &[0, 1, 2, 2, 3] };
static MESSAGE: Form = Form { following: 3, fields: &[0, 0, 1, 2, 3, 2, 2, 2] };

pub fn reservation(server: usize, address: usize) -> Choice {
    Choice { place: places::reservation(server, address), form: &STORED }
}

pub fn write(server: usize, address: usize) -> Choice {
    Choice { place: places::write(server, address), form: &STORED }
}

pub fn client(client: usize) -> Choice {
    Choice { place: places::client(client), form: &CLIENT }
}

pub fn message(position: usize) -> Choice {
    Choice { place: places::message(position) + 3, form: &MESSAGE }
}

impl Choice {
    /// Chooses any case. The numbers that it has stay as they are.
    pub fn choose(&self, random: &mut Random, list: &mut [u32]) {
        let case = random.below(self.form.fields.len());
        self.set(list, case);
    }

    /// Chooses that case.
    pub fn set(&self, list: &mut [u32], case: usize) {
        list[self.place] = case as u32;
        let after = self.place + 1;
        list[after + self.form.fields[case]..after + self.form.following].fill(0);
    }

    /// The numbers that its case does not have, if the case is known.
    pub fn missing(&self, list: &[u32]) -> std::ops::Range<usize> {
        let after = self.place + 1;
        let fields = self.form.fields.get(list[self.place] as usize);
        after + fields.unwrap_or(&self.form.following)..after + self.form.following
    }
}

/// Every flag.
pub fn flags() -> impl Iterator<Item = usize> {
    (0..SERVERS).flat_map(|server| {
        let alive = std::iter::once(places::alive(server));
        let believed = (0..SERVERS).map(move |about| places::believed(server, about));
        let led = (0..ADDRESSES).map(move |address| places::led(server, address));
        let acknowledged = (0..ADDRESSES).flat_map(move |address| {
            (0..SERVERS).map(move |by| places::acknowledged(server, address, by))
        });
        alive.chain(believed).chain(led).chain(acknowledged)
    })
}

/// Everything that has cases.
pub fn choices() -> impl Iterator<Item = Choice> {
    let stored = (0..SERVERS).flat_map(|server| {
        (0..ADDRESSES)
            .flat_map(move |address| [reservation(server, address), write(server, address)])
    });
    stored.chain((0..CLIENTS).map(client)).chain((0..MESSAGES).map(message))
}
