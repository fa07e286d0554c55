//! `benchmark --rig PATH --reference PATH [--rewrite PATH] [--repeats N]`
//! times the programs and the reference side by side on the same scripts.

use std::fs;
use std::io;
use std::path::{Path, PathBuf};
use std::process::ExitCode;

use compare::case::{compare, Programs};
use compare::load::{loads, Load};
use compare::options::Options;
use compare::table::table;
use compare::timing::{median, per_record, time, Pairs};

const DEFAULT_REPEATS: u64 = 41;
const LEAST_REPEATS: u64 = 15;
const WARM_UP: u64 = 3;

/// A program and the reference's program that prints the same.
struct Contest {
    name: &'static str,
    ours: String,
    reference: String,
}

struct Order {
    programs: Programs,
    contests: Vec<Contest>,
    repeats: u64,
}

fn order() -> Result<Order, String> {
    let names = ["rig", "rewrite", "reference", "repeats"];
    let options = Options::read(std::env::args().skip(1), &names)?;
    let rig = options.needed("rig")?.to_string();
    let reference = options.needed("reference")?.to_string();
    let rewrite = options.text("rewrite").map(str::to_string);
    let mut contests = vec![Contest { name: "rig", ours: rig.clone(), reference }];
    if let Some(ours) = rewrite.clone() {
        contests.push(Contest { name: "rewrite", ours, reference: rewrite_reference()? });
    }
    let repeats = options.number("repeats")?.unwrap_or(DEFAULT_REPEATS).max(LEAST_REPEATS);
    Ok(Order { programs: Programs { rig, rewrite }, contests, repeats })
}

/// The program `rewrite-reference` next to this one.
fn rewrite_reference() -> Result<String, String> {
    let own = std::env::current_exe().map_err(|problem| problem.to_string())?;
    let path = own.with_file_name("rewrite-reference");
    path.to_str().map(str::to_string).ok_or_else(|| "the path is not UTF-8".to_string())
}

/// A folder with the scripts as files, removed at the end.
struct Folder(PathBuf);

impl Folder {
    fn new(loads: &[Load]) -> io::Result<Self> {
        let name = format!("benchmark-{}", std::process::id());
        let folder = Folder(std::env::temp_dir().join(name));
        fs::create_dir_all(&folder.0)?;
        for (index, load) in loads.iter().enumerate() {
            fs::write(folder.input(index), &load.script)?;
        }
        Ok(folder)
    }

    fn input(&self, index: usize) -> PathBuf {
        self.0.join(format!("{index}.script"))
    }

    fn output(&self) -> PathBuf {
        self.0.join("output")
    }
}

impl Drop for Folder {
    fn drop(&mut self) {
        // Nothing is lost if the folder stays.
        let _ = fs::remove_dir_all(&self.0);
    }
}

/// The two programs one after the other, each first in every other turn.
fn time_both(contest: &Contest, input: &Path, output: &Path, turn: u64) -> io::Result<Pairs> {
    let mut pairs = Pairs::default();
    for ours in [turn.is_multiple_of(2), !turn.is_multiple_of(2)] {
        if ours {
            pairs.ours.push(time(&contest.ours, input, output)?);
        } else {
            pairs.reference.push(time(&contest.reference, input, output)?);
        }
    }
    Ok(pairs)
}

/// Times for each script. All scripts take their turn before the next repeat,
/// so that a slow moment of the machine does not fall on one of them.
fn time_all(contest: &Contest, loads: &[Load], repeats: u64) -> io::Result<Vec<Pairs>> {
    let folder = Folder::new(loads)?;
    let mut all: Vec<Pairs> = loads.iter().map(|_| Pairs::default()).collect();
    for turn in 0..WARM_UP + repeats {
        for (index, kept) in all.iter_mut().enumerate() {
            let pairs = time_both(contest, &folder.input(index), &folder.output(), turn)?;
            if turn >= WARM_UP {
                kept.ours.extend(pairs.ours);
                kept.reference.extend(pairs.reference);
            }
        }
    }
    Ok(all)
}

const COLUMNS: [&str; 9] = [
    "script",
    "bytes",
    "records",
    "PROGRAM ms",
    "reference ms",
    "ratio",
    "spread",
    "PROGRAM ns/record",
    "reference ns/record",
];

/// Medians, their ratio, the spread of the ratio, and the time per record.
fn row(load: &Load, pairs: &Pairs, empty: &Pairs) -> Vec<String> {
    let milliseconds = |times| format!("{:.2}", median(times).as_secs_f64() * 1e3);
    let each = |times, empty_times| match load.records {
        0 => "-".to_string(),
        records => format!("{:.0}", per_record(times, empty_times, records)),
    };
    let (lowest, highest) = pairs.spread();
    vec![
        load.name.clone(),
        load.script.len().to_string(),
        load.records.to_string(),
        milliseconds(&pairs.ours),
        milliseconds(&pairs.reference),
        format!("{:.2}", pairs.ratio_of_medians()),
        format!("{lowest:.2} to {highest:.2}"),
        each(&pairs.ours, &empty.ours),
        each(&pairs.reference, &empty.reference),
    ]
}

fn print_table(contest: &Contest, loads: &[Load], all: &[Pairs]) {
    let heading = COLUMNS.map(|column| column.replace("PROGRAM", contest.name)).to_vec();
    let rows = loads.iter().zip(all).map(|(load, pairs)| row(load, pairs, &all[0]));
    let rows: Vec<Vec<String>> = std::iter::once(heading).chain(rows).collect();
    print!("\n{}", table(&rows));
}

/// True if the programs print what the reference prints.
fn all_right(programs: &Programs, loads: &[Load]) -> io::Result<bool> {
    for load in loads {
        if let Err(difference) = compare(programs, &load.script)? {
            println!("{}: {difference}", load.name);
            return Ok(false);
        }
    }
    Ok(true)
}

fn measure(order: &Order) -> io::Result<bool> {
    let loads = loads();
    if !all_right(&order.programs, &loads)? {
        return Ok(false);
    }
    println!("Whole runs: the median of {} after {WARM_UP} to warm up.", order.repeats);
    println!("Per record: the median of what a run takes above the run without records.");
    for contest in &order.contests {
        print_table(contest, &loads, &time_all(contest, &loads, order.repeats)?);
    }
    Ok(true)
}

fn main() -> ExitCode {
    let order = match order() {
        Ok(order) => order,
        Err(problem) => {
            eprintln!("benchmark: {problem}");
            eprintln!("use: benchmark --rig PATH --reference PATH [--rewrite PATH] [--repeats N]");
            return ExitCode::from(2);
        }
    };
    match measure(&order) {
        Ok(true) => ExitCode::SUCCESS,
        Ok(false) => ExitCode::FAILURE,
        Err(problem) => {
            eprintln!("benchmark: {problem}");
            ExitCode::from(2)
        }
    }
}
