//! Prints the number of the refusal of a whole script, 0 if it is accepted.

use std::io;

use reference::{rig, script};

fn main() -> io::Result<()> {
    let script = rig::read_input()?;
    println!("{}", script::verdict(&script));
    Ok(())
}
