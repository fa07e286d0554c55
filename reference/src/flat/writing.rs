//! From a facade to its flat list.

use super::cases::{client_numbers, message_numbers, reservation_numbers, write_numbers};
use super::places::{self, LENGTH, SERVERS};
use crate::configuration::Configuration;
use crate::facade::{AddressEntry, Facade, Server, Tick};

/// The facade's numbers put over a list that has something in the unused
/// places. The facade must fit into its places.
pub fn to_numbers(facade: &Facade, unused: &[u32]) -> Vec<u32> {
    let mut list = unused.to_vec();
    put(&mut list, places::CONFIGURATION, facade.configuration.numbers());
    list[places::TIME] = facade.time as u32;
    list[places::NEXT_INTERACTION] = facade.next_interaction;
    list[places::WAITING] = facade.waiting.len() as u32;
    for (party, offset) in facade.offsets.iter().enumerate() {
        list[places::offset(party)] = signed(*offset);
    }
    for (server, state) in facade.servers.iter().enumerate() {
        put_server(&mut list, server, state, facade.servers.len());
        for about in (0..facade.servers.len()).filter(|&about| about != server) {
            let time = facade.notice_times[server][about];
            list[places::notice_time(server, about)] = time as u32;
        }
    }
    for (client, state) in facade.clients.iter().enumerate() {
        put(&mut list, places::client(client), client_numbers(*state));
    }
    for (position, message) in facade.waiting.iter().enumerate() {
        put(&mut list, places::message(position), message_numbers(*message));
    }
    list
}

fn put_server(list: &mut [u32], server: usize, state: &Server, count: usize) {
    list[places::alive(server)] = state.alive.into();
    list[places::changed(server)] = state.changed as u32;
    list[places::return_reading(server)] = state.return_reading as u32;
    for about in 0..count {
        list[places::believed(server, about)] = state.believed_live.contains(about).into();
    }
    for (address, entry) in state.entries.iter().enumerate() {
        put_entry(list, server, address, entry, count);
    }
}

fn put_entry(list: &mut [u32], server: usize, address: usize, entry: &AddressEntry, count: usize) {
    list[places::led(server, address)] = entry.leads.into();
    list[places::lent_end(server, address)] = entry.lent_end as u32;
    list[places::record(server, address)] = entry.record as u32;
    put(list, places::reservation(server, address), reservation_numbers(entry.reservation));
    put(list, places::write(server, address), write_numbers(entry.write));
    // With no open write the flags are unused places.
    if let Some(write) = entry.write {
        for by in 0..count {
            let flag = write.acknowledged.contains(by);
            list[places::acknowledged(server, address, by)] = flag.into();
        }
    }
}

pub fn put<const COUNT: usize>(list: &mut [u32], place: usize, numbers: [u32; COUNT]) {
    list[place..place + COUNT].copy_from_slice(&numbers);
}

/// In two's complement.
fn signed(tick: Tick) -> u32 {
    tick as i32 as u32
}

/// The list of the fresh facade, which fills all places alike. The
/// configuration need not be in range.
pub fn fresh(configuration: &Configuration) -> Vec<u32> {
    let mut list = vec![0; LENGTH];
    put(&mut list, places::CONFIGURATION, configuration.numbers());
    list[places::NEXT_INTERACTION] = 1;
    for server in 0..SERVERS {
        list[places::alive(server)] = 1;
        put(&mut list, places::believed(server, 0), [1; SERVERS]);
    }
    list
}
