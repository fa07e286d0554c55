//! `generate SEED COUNT OUTDIR [--kind K]` writes scripts as files.

use std::fs;
use std::path::Path;
use std::process::ExitCode;

use reference::generator::{self, Kind, KINDS};

struct Order {
    seed: u64,
    count: u64,
    folder: String,
    kind: Option<Kind>,
}

fn parse(arguments: &[String]) -> Option<Order> {
    let kind = match arguments.get(3..) {
        None | Some([]) => None,
        Some([flag, name]) if flag == "--kind" => Some(generator::kind_named(name)?),
        Some(_) => return None,
    };
    Some(Order {
        seed: arguments.first()?.parse().ok()?,
        count: arguments.get(1)?.parse().ok()?,
        folder: arguments.get(2)?.clone(),
        kind,
    })
}

fn write_all(order: &Order) -> std::io::Result<()> {
    fs::create_dir_all(&order.folder)?;
    for index in 0..order.count {
        let script = generator::script(order.seed, index, order.kind);
        let file = Path::new(&order.folder).join(format!("{index:06}.script"));
        fs::write(file, script)?;
    }
    Ok(())
}

fn main() -> std::io::Result<ExitCode> {
    let arguments: Vec<String> = std::env::args().skip(1).collect();
    let Some(order) = parse(&arguments) else {
        let names: Vec<&str> = KINDS.iter().map(|(_, name, _)| *name).collect();
        eprintln!("use: generate SEED COUNT OUTDIR [--kind {}]", names.join("|"));
        return Ok(ExitCode::FAILURE);
    };
    write_all(&order)?;
    Ok(ExitCode::SUCCESS)
}
