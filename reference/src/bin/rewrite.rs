//! Decodes an accepted script and writes it again with the writer.

use std::io::{self, Write};
use std::process::ExitCode;

use reference::script::LONGEST_SCRIPT;
use reference::{rig, script, writer, Refusal};

fn rewrite(input: &[u8]) -> Result<Vec<u8>, Refusal> {
    let (configuration, steps) = script::decode(input)?;
    let mut buffer = vec![0; LONGEST_SCRIPT];
    let length = writer::write_script(&configuration, &steps, &mut buffer)?;
    buffer.truncate(length);
    Ok(buffer)
}

fn main() -> io::Result<ExitCode> {
    match rewrite(&rig::read_input()?) {
        Ok(output) => {
            io::stdout().lock().write_all(&output)?;
            Ok(ExitCode::SUCCESS)
        }
        Err(refusal) => {
            eprintln!("the script has refusal {}", refusal.number());
            Ok(ExitCode::FAILURE)
        }
    }
}
