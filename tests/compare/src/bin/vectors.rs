//! `vectors SEED [COUNT] OUTDIR` selects scripts and writes them with what
//! the reference prints for them.
//!
//! OUTDIR/stdin is the number of scripts, then each script after its length,
//! all numbers in four bytes, big-endian. OUTDIR/stdout is what the rig prints
//! for each script, one after the other.

use std::fs;
use std::io;
use std::path::Path;
use std::process::ExitCode;

use compare::coverage::markdown;
use compare::goals::WANTED;
use compare::selection::select;
use reference::rig;
use reference::tally::Tally;

const DEFAULT_COUNT: usize = 420;

struct Order {
    seed: u64,
    count: usize,
    folder: String,
}

fn order() -> Option<Order> {
    let arguments: Vec<String> = std::env::args().skip(1).collect();
    let (seed, count, folder) = match arguments.as_slice() {
        [seed, folder] => (seed, DEFAULT_COUNT, folder),
        [seed, count, folder] => (seed, count.parse().ok()?, folder),
        _ => return None,
    };
    Some(Order { seed: seed.parse().ok()?, count, folder: folder.clone() })
}

fn push_number(bytes: &mut Vec<u8>, number: usize) {
    bytes.extend_from_slice(&(number as u32).to_be_bytes());
}

fn write_all(folder: &str, scripts: &[Vec<u8>]) -> io::Result<()> {
    let (mut input, mut output) = (Vec::new(), Vec::new());
    push_number(&mut input, scripts.len());
    for script in scripts {
        push_number(&mut input, script.len());
        input.extend_from_slice(script);
        output.extend(rig::run(script));
    }
    fs::create_dir_all(folder)?;
    fs::write(Path::new(folder).join("stdin"), input)?;
    fs::write(Path::new(folder).join("stdout"), output)
}

fn main() -> io::Result<ExitCode> {
    let Some(Order { seed, count, folder }) = order() else {
        eprintln!("use: vectors SEED [COUNT] OUTDIR");
        return Ok(ExitCode::from(2));
    };
    let scripts = match select(seed, count) {
        Ok(scripts) => scripts,
        Err(missed) => {
            eprintln!(
                "vectors: {count} scripts do not reach, {WANTED} times each: {}",
                missed.join(", ")
            );
            return Ok(ExitCode::FAILURE);
        }
    };
    write_all(&folder, &scripts)?;
    let mut tally = Tally::default();
    scripts.iter().for_each(|script| tally.add(script));
    print!("{}", markdown(&tally));
    Ok(ExitCode::SUCCESS)
}
