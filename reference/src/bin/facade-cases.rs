//! `facade-cases SEED COUNT` makes cases and prints what they reach.
//! `facade-cases SEED COUNT --store DIR` chooses so many for a stored sample
//! and writes it as `DIR/stdin` and `DIR/stdout`.

use std::fs;
use std::io::{self, Write};
use std::path::Path;
use std::process::ExitCode;

use reference::facades::{self, sample, stored, tally::Tally};

struct Order {
    seed: u64,
    count: u64,
    folder: Option<String>,
}

fn parse(arguments: &[String]) -> Option<Order> {
    let folder = match arguments.get(2..) {
        None | Some([]) => None,
        Some([flag, folder]) if flag == "--store" => Some(folder.clone()),
        Some(_) => return None,
    };
    Some(Order {
        seed: arguments.first()?.parse().ok()?,
        count: arguments.get(1)?.parse().ok()?,
        folder,
    })
}

fn store(order: &Order, folder: &Path) -> io::Result<Tally> {
    let cases = sample::choose(order.seed, order.count as usize);
    fs::create_dir_all(folder)?;
    fs::write(folder.join("stdin"), stored::input(&cases))?;
    fs::write(folder.join("stdout"), stored::output(&cases))?;
    let mut tally = Tally::default();
    cases.iter().for_each(|case| tally.add(case));
    Ok(tally)
}

fn count(order: &Order) -> Tally {
    let mut tally = Tally::default();
    for index in 0..order.count {
        tally.add(&facades::case(order.seed, index));
    }
    tally
}

fn main() -> io::Result<ExitCode> {
    let arguments: Vec<String> = std::env::args().skip(1).collect();
    let Some(order) = parse(&arguments) else {
        eprintln!("use: facade-cases SEED COUNT [--store DIR]");
        return Ok(ExitCode::FAILURE);
    };
    let tally = match &order.folder {
        Some(folder) => store(&order, Path::new(folder))?,
        None => count(&order),
    };
    write!(io::stdout().lock(), "{tally}")?;
    Ok(ExitCode::SUCCESS)
}
