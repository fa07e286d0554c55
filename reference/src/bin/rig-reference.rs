//! Runs a script from standard input and prints what the rig prints.

use std::io::{self, Write};

use reference::rig;

fn main() -> io::Result<()> {
    let script = rig::read_input()?;
    io::stdout().lock().write_all(&rig::run(&script))
}
