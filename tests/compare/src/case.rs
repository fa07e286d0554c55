//! One script given to the programs, and the reference's word on it.

use std::io;

use reference::{generator, rig};

use crate::difference::{of_rewrite, of_rig, Difference};
use crate::inputs::bad_inputs;
use crate::process::run;
use crate::rewritten::rewritten;

/// Paths of what is compared with the reference.
pub struct Programs {
    pub rig: String,
    pub rewrite: Option<String>,
}

/// The bad inputs first, then generated scripts.
pub struct Cases {
    pub seed: u64,
    bad: Vec<(String, Vec<u8>)>,
    generated: u64,
}

pub struct Case {
    /// What it is, in words.
    pub name: String,
    /// What its file is called, without an ending.
    pub file: String,
    pub script: Vec<u8>,
}

#[derive(Default)]
pub struct Compared {
    pub scripts: usize,
    pub records: usize,
    pub bytes: usize,
}

impl Cases {
    pub fn new(seed: u64, generated: u64) -> Self {
        Cases { seed, bad: bad_inputs(seed), generated }
    }

    pub fn count(&self) -> usize {
        self.bad.len() + self.generated as usize
    }

    pub fn get(&self, number: usize) -> Case {
        let seed = self.seed;
        if let Some((name, bytes)) = self.bad.get(number) {
            return Case {
                name: format!("bad input {number} ({name})"),
                file: format!("difference-{seed}-bad-{number}"),
                script: bytes.clone(),
            };
        }
        let index = number - self.bad.len();
        Case {
            name: format!("generated script, index {index}"),
            file: format!("difference-{seed}-{index}"),
            script: generator::script(seed, index as u64, None),
        }
    }
}

impl Compared {
    pub fn add(&mut self, other: &Compared) {
        self.scripts += other.scripts;
        self.records += other.records;
        self.bytes += other.bytes;
    }
}

/// Runs each program once. An error means that one could not be started.
pub fn compare(programs: &Programs, script: &[u8]) -> io::Result<Result<Compared, Difference>> {
    let printed = rig::run(script);
    if let Some(difference) = of_rig(&printed, &run(&programs.rig, script)?) {
        return Ok(Err(difference));
    }
    let mut compared =
        Compared { scripts: 1, records: record_count(&printed), bytes: printed.len() };
    if let Some(rewrite) = &programs.rewrite {
        let expected = rewritten(script);
        if let Some(difference) = of_rewrite(script, &expected, &run(rewrite, script)?) {
            return Ok(Err(difference));
        }
        compared.bytes += expected.len();
    }
    Ok(Ok(compared))
}

/// How many records have a line. Refusals 1 and 2 print a single line.
pub fn record_count(printed: &[u8]) -> usize {
    let lines = printed.iter().filter(|&&byte| byte == b'\n').count();
    lines.saturating_sub(2)
}
