//! Flat lists for tests, and what a step changes in them.

use reference::flat::{answer, fresh, places};
use reference::Configuration;

/// The numbers that a step changes, or its refusal.
pub type Changes = Result<(u8, Vec<(usize, u32)>), u8>;

pub fn changes(list: &[u32], step: [u32; 4]) -> Changes {
    let given = answer(list, step);
    assert_eq!(given.facade.len(), list.len());
    let pairs = list.iter().zip(&given.facade).enumerate();
    let changed: Vec<(usize, u32)> = pairs
        .filter(|(_, (before, after))| before != after)
        .map(|(place, (_, after))| (place, *after))
        .collect();
    if given.refusal == 0 {
        return Ok((given.outcome, changed));
    }
    assert_eq!((given.outcome, changed), (0, Vec::new()));
    Err(given.refusal)
}

/// What is expected, in the order of the places.
pub fn taken(outcome: u8, changed: &[(usize, u32)]) -> Changes {
    let mut ordered = changed.to_vec();
    ordered.sort_unstable();
    Ok((outcome, ordered))
}

/// Δ=2, ν=5, μ=50, θ=10; 2 clients, 3 addresses; clocks exact, every notice
/// given now, κ 1 to 9 used.
pub fn list_at(servers: u32, time: u32) -> Vec<u32> {
    let mut list = fresh(&Configuration::from_numbers([servers, 2, 3, 2, 5, 50, 10]));
    list[places::TIME] = time;
    list[places::NEXT_INTERACTION] = 10;
    for server in 0..4 {
        for about in 0..4 {
            list[places::notice_time(server, about)] = time;
        }
    }
    list
}

/// The only waiting message.
pub fn send(list: &mut [u32], numbers: [u32; 7]) {
    list[places::WAITING] = 1;
    list[places::message(0)..][..7].copy_from_slice(&numbers);
}

pub const DELIVER: [u32; 4] = [8, 0, 0, 0];
pub const KEEP: [u32; 4] = [8, 0, 1, 0];
