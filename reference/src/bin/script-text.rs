//! `script-text pack < text > script` and `script-text unpack < script > text`.

use std::io::{self, Read, Write};
use std::process::ExitCode;

use reference::text;

fn pack(input: Vec<u8>) -> Result<Vec<u8>, String> {
    let input = String::from_utf8(input).map_err(|_| "the text is not UTF-8".to_string())?;
    text::pack(&input).map_err(|error| error.to_string())
}

fn main() -> io::Result<ExitCode> {
    let mut input = Vec::new();
    let way = std::env::args().nth(1).unwrap_or_default();
    if way != "pack" && way != "unpack" {
        eprintln!("use: script-text pack|unpack < input > output");
        return Ok(ExitCode::FAILURE);
    }
    io::stdin().lock().read_to_end(&mut input)?;
    let output = if way == "pack" { pack(input) } else { Ok(text::unpack(&input).into_bytes()) };
    match output {
        Ok(bytes) => {
            let mut out = io::stdout().lock();
            out.write_all(&bytes)?;
            out.flush()?;
            Ok(ExitCode::SUCCESS)
        }
        Err(problem) => {
            eprintln!("script-text: {problem}");
            Ok(ExitCode::FAILURE)
        }
    }
}
