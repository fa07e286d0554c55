//! Prints what the program `rewrite` must print for the script on standard
//! input.

use std::io::{self, Write};

use compare::rewritten::rewritten;
use reference::rig::read_input;

fn main() -> io::Result<()> {
    let script = read_input()?;
    io::stdout().lock().write_all(&rewritten(&script))
}
