//! Where the numbers of a flat list stand.

pub const LENGTH: usize = 2_778;

/// How many there is room for.
pub const SERVERS: usize = 4;
pub const CLIENTS: usize = 32;
pub const PARTIES: usize = SERVERS + CLIENTS;
pub const ADDRESSES: usize = 32;
pub const MESSAGES: usize = 128;

/// How many numbers one has.
pub const SERVER: usize = 423;
pub const RESERVATION: usize = 3;
pub const WRITE: usize = 7;
pub const CLIENT: usize = 4;
pub const MESSAGE: usize = 7;

/// The seven numbers of the configuration.
pub const CONFIGURATION: usize = 0;
pub const TIME: usize = 7;
pub const NEXT_INTERACTION: usize = 8;
pub const WAITING: usize = 9;

pub fn offset(party: usize) -> usize {
    10 + party
}

pub fn notice_time(server: usize, about: usize) -> usize {
    46 + 4 * server + about
}

/// A server's first number: whether it is alive.
pub fn alive(server: usize) -> usize {
    62 + SERVER * server
}

pub fn changed(server: usize) -> usize {
    alive(server) + 1
}

pub fn return_reading(server: usize) -> usize {
    alive(server) + 2
}

pub fn believed(server: usize, about: usize) -> usize {
    alive(server) + 3 + about
}

pub fn led(server: usize, address: usize) -> usize {
    alive(server) + 7 + address
}

pub fn lent_end(server: usize, address: usize) -> usize {
    alive(server) + 39 + address
}

pub fn record(server: usize, address: usize) -> usize {
    alive(server) + 71 + address
}

/// The first of three numbers.
pub fn reservation(server: usize, address: usize) -> usize {
    alive(server) + 103 + RESERVATION * address
}

/// The first of three numbers and four flags.
pub fn write(server: usize, address: usize) -> usize {
    alive(server) + 199 + WRITE * address
}

pub fn acknowledged(server: usize, address: usize, by: usize) -> usize {
    write(server, address) + 3 + by
}

/// The first of four numbers.
pub fn client(client: usize) -> usize {
    1754 + CLIENT * client
}

/// The first of seven numbers; the fourth is the type.
pub fn message(position: usize) -> usize {
    1882 + MESSAGE * position
}
