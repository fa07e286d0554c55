//! What demand 3 is about, read off a facade (clause e of document 01).

use crate::facade::{Client, Facade};

/// The first breach found, in words: two clients that hold one address, two
/// live servers that lead one address, or a live server that leads a held
/// address with a record earlier than the holder's end, which is the end that
/// it kept (C-11).
pub fn breach(facade: &Facade) -> Option<String> {
    let addresses = facade.configuration.addresses as usize;
    (0..addresses).find_map(|address| breach_at(facade, address))
}

fn breach_at(facade: &Facade, address: usize) -> Option<String> {
    let ends: Vec<_> = facade
        .clients
        .iter()
        .filter_map(|client| match *client {
            Client::Holding { address: held, end, .. } if held == address => Some(end),
            _ => None,
        })
        .collect();
    let records: Vec<_> = facade
        .servers
        .iter()
        .filter(|server| server.alive && server.entries[address].leads)
        .map(|server| server.entries[address].record)
        .collect();
    if ends.len() > 1 {
        return Some(format!("{} clients hold address {address}", ends.len()));
    }
    if records.len() > 1 {
        return Some(format!("{} live servers lead address {address}", records.len()));
    }
    let (end, record) = (ends.first()?, records.first()?);
    (record < end).then(|| format!("address {address}: record {record} before end {end}"))
}
