//! `differential --rig PATH [--rewrite PATH] [--seed N] [--count N]` gives
//! random scripts and fixed bad inputs to the programs and compares what they
//! print with the reference, byte for byte.

use std::fs;
use std::io;
use std::process::ExitCode;
use std::sync::atomic::{AtomicBool, AtomicUsize, Ordering};
use std::sync::Mutex;
use std::thread;
use std::time::{Instant, SystemTime, UNIX_EPOCH};

use compare::case::{compare, Case, Cases, Compared, Programs};
use compare::difference::{excerpt, Difference};
use compare::options::Options;

const WORKERS: usize = 2;
const DEFAULT_COUNT: u64 = 2_000;

/// What the workers share.
struct Progress {
    next: AtomicUsize,
    stopped: AtomicBool,
    compared: Mutex<Compared>,
    /// The case of the lowest number found so far.
    found: Mutex<Option<(usize, Difference)>>,
}

impl Progress {
    fn keep(&self, number: usize, difference: Difference) {
        self.stopped.store(true, Ordering::Relaxed);
        let mut found = self.found.lock().expect("no worker panics");
        if found.as_ref().is_none_or(|(lowest, _)| number < *lowest) {
            *found = Some((number, difference));
        }
    }
}

/// Takes one case after the other until a worker finds a difference.
fn work(programs: &Programs, cases: &Cases, progress: &Progress) -> io::Result<()> {
    while !progress.stopped.load(Ordering::Relaxed) {
        let number = progress.next.fetch_add(1, Ordering::Relaxed);
        if number >= cases.count() {
            break;
        }
        match compare(programs, &cases.get(number).script)? {
            Ok(compared) => progress.compared.lock().expect("no worker panics").add(&compared),
            Err(difference) => progress.keep(number, difference),
        }
    }
    Ok(())
}

fn work_all(programs: &Programs, cases: &Cases) -> io::Result<Progress> {
    let progress = Progress {
        next: AtomicUsize::new(0),
        stopped: AtomicBool::new(false),
        compared: Mutex::default(),
        found: Mutex::new(None),
    };
    thread::scope(|scope| {
        let workers: Vec<_> =
            (0..WORKERS).map(|_| scope.spawn(|| work(programs, cases, &progress))).collect();
        workers.into_iter().try_for_each(|worker| worker.join().expect("no worker panics"))
    })?;
    Ok(progress)
}

fn show(cases: &Cases, number: usize, difference: &Difference) -> io::Result<()> {
    let Case { name, file, script } = cases.get(number);
    println!("seed {}, {name}, {} bytes", cases.seed, script.len());
    print!("{}{difference}", excerpt(&script, difference.record));
    let path = std::env::temp_dir().join(file).with_extension("script");
    fs::write(&path, script)?;
    println!("the script is in {}", path.display());
    Ok(())
}

fn clock_seed() -> u64 {
    let since = SystemTime::now().duration_since(UNIX_EPOCH);
    since.map_or(0, |time| time.as_micros() as u64)
}

fn order() -> Result<(Programs, Cases), String> {
    let names = ["rig", "rewrite", "seed", "count"];
    let options = Options::read(std::env::args().skip(1), &names)?;
    let rewrite = options.text("rewrite").map(str::to_string);
    let programs = Programs { rig: options.needed("rig")?.to_string(), rewrite };
    let seed = options.number("seed")?.unwrap_or_else(clock_seed);
    Ok((programs, Cases::new(seed, options.number("count")?.unwrap_or(DEFAULT_COUNT))))
}

fn main() -> io::Result<ExitCode> {
    let (programs, cases) = match order() {
        Ok(order) => order,
        Err(problem) => {
            eprintln!("differential: {problem}");
            eprintln!("use: differential --rig PATH [--rewrite PATH] [--seed N] [--count N]");
            return Ok(ExitCode::from(2));
        }
    };
    println!("seed {}", cases.seed);
    let start = Instant::now();
    let progress = match work_all(&programs, &cases) {
        Ok(progress) => progress,
        Err(problem) => {
            eprintln!("differential: a program cannot be run: {problem}");
            return Ok(ExitCode::from(2));
        }
    };
    if let Some((number, difference)) = &*progress.found.lock().expect("no worker panics") {
        show(&cases, *number, difference)?;
        return Ok(ExitCode::FAILURE);
    }
    let Compared { scripts, records, bytes } = *progress.compared.lock().expect("no worker panics");
    let seconds = start.elapsed().as_secs_f64();
    println!("{scripts} scripts, {records} records, {bytes} bytes compared, {seconds:.1} seconds");
    println!("no difference");
    Ok(ExitCode::SUCCESS)
}
