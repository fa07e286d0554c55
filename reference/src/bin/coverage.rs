//! `coverage FILE_OR_FOLDER...` prints what the scripts reach.

use std::fs;
use std::io;
use std::path::{Path, PathBuf};
use std::process::ExitCode;

use reference::tally::Tally;

/// The file itself, or the files of the folder in the order of their names.
fn files(path: &Path) -> io::Result<Vec<PathBuf>> {
    if !path.is_dir() {
        return Ok(vec![path.to_path_buf()]);
    }
    let mut found = Vec::new();
    for entry in fs::read_dir(path)? {
        let file = entry?.path();
        if file.is_file() {
            found.push(file);
        }
    }
    found.sort();
    Ok(found)
}

fn main() -> io::Result<ExitCode> {
    let arguments: Vec<String> = std::env::args().skip(1).collect();
    if arguments.is_empty() {
        eprintln!("use: coverage FILE_OR_FOLDER...");
        return Ok(ExitCode::from(2));
    }
    let mut tally = Tally::default();
    for argument in &arguments {
        for file in files(Path::new(argument))? {
            tally.add(&fs::read(file)?);
        }
    }
    print!("{tally}");
    Ok(ExitCode::SUCCESS)
}
