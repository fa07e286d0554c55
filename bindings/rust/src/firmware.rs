//! One sealed server or one client on its own, as its firmware has it: numbers
//! that it keeps, and what it sends. `docs/FLAT-FORM.md` has their layout.
//!
//! A refusal is the first of these that holds: 2, a list that codes nothing, a number
//! out of its range, a message for another party, interaction 0; 5, a wanted end above
//! 2,000,000,000; 6, no server or client of that number, a notice about the server
//! itself or about one that does not exist; 7, a client in the wrong state; 12, an
//! interaction above 1,000,000. That a server is not alive is no reason to refuse: the
//! firmware keeps the first number of its server, alive, at 1, and calls `pass_time` whenever
//! its client's clock moves: no other function ends a hold.

use crate::raw;
use crate::{accepted, Refusal};

/// How many numbers a server has.
pub const SERVER: usize = 423;
/// How many numbers a client has.
pub const CLIENT: usize = 4;
/// How many numbers a message has.
pub const MESSAGE: usize = 7;
/// How many numbers stand for what is sent: how many messages, and room for four.
pub const SENT: usize = 29;

/// What a server or a client knows whenever it is called.
#[derive(Clone, Copy, Debug)]
pub struct Device<'a> {
    pub configuration: &'a [u32],
    /// Its number among the servers, or among the clients.
    pub number: u32,
    /// Its clock reading.
    pub reading: u32,
}

/// What came of a call.
#[derive(Clone, Debug, PartialEq, Eq)]
pub struct Done {
    pub outcome: u32,
    pub sent: [u32; SENT],
}

/// Calls a function with the device, the server or client, more arguments, and
/// places for what is sent and for the outcome.
macro_rules! call {
    ($function:ident, $device:expr, $party:expr $(, $argument:expr)*) => {{
        let mut done = Done { outcome: 0, sent: [0; SENT] };
        let refusal = unsafe {
            raw::$function(
                $device.configuration.as_ptr(),
                $device.configuration.len(),
                $device.number,
                $device.reading,
                $party.as_mut_ptr(),
                $party.len(),
                $($argument,)*
                done.sent.as_mut_ptr(),
                done.sent.len(),
                &mut done.outcome,
            )
        };
        accepted(refusal, done)
    }};
}

/// A message comes to the server.
pub fn receive_message(
    device: Device,
    server: &mut [u32],
    message: &[u32],
) -> Result<Done, Refusal> {
    call!(hoyllaqe_receive_message, device, server, message.as_ptr(), message.len())
}

/// A notice comes to the server: `about` is alive or dead.
pub fn take_notice(
    device: Device,
    server: &mut [u32],
    about: u32,
    alive: bool,
) -> Result<Done, Refusal> {
    call!(hoyllaqe_take_notice, device, server, about, u32::from(alive))
}

/// The server comes back after a failure. Whether it is alive stays as it was.
pub fn come_back(device: Device, server: &mut [u32]) -> Result<Done, Refusal> {
    call!(hoyllaqe_come_back, device, server)
}

/// The server drops old reservations.
pub fn clean_up(device: Device, server: &mut [u32]) -> Result<Done, Refusal> {
    call!(hoyllaqe_clean_up, device, server)
}

/// A message comes to the client.
pub fn receive_reply(
    device: Device,
    client: &mut [u32],
    message: &[u32],
) -> Result<Done, Refusal> {
    call!(hoyllaqe_receive_reply, device, client, message.as_ptr(), message.len())
}

/// The client discovers, with a new interaction.
pub fn discover(device: Device, client: &mut [u32], interaction: u32) -> Result<Done, Refusal> {
    call!(hoyllaqe_discover, device, client, interaction)
}

/// The client requests the address that it was offered until the wanted end.
pub fn request(device: Device, client: &mut [u32], wanted: u32) -> Result<Done, Refusal> {
    call!(hoyllaqe_request, device, client, wanted)
}

/// The client renews its hold until the wanted end, with a new interaction.
pub fn renew(
    device: Device,
    client: &mut [u32],
    wanted: u32,
    interaction: u32,
) -> Result<Done, Refusal> {
    call!(hoyllaqe_renew, device, client, wanted, interaction)
}

/// Time passed for the client: a hold whose end is not above the clock is over.
pub fn pass_time(device: Device, client: &mut [u32]) -> Result<Done, Refusal> {
    call!(hoyllaqe_pass_time, device, client)
}
