//! The original as oracle: see `README.md`.

#[cfg(feature = "engine")]
mod asker;
#[cfg(feature = "engine")]
mod bench;
mod chooser;
mod command;
#[cfg(feature = "engine")]
mod compare;
mod count;
mod damage;
#[cfg(feature = "engine")]
mod document;
#[cfg(feature = "engine")]
mod engine;
mod generate;
#[cfg(feature = "engine")]
mod groups;
mod guide;
#[cfg(feature = "engine")]
mod lent;
mod oracle;
mod pairs;
mod random;
#[cfg(feature = "engine")]
mod ranges;
mod raw;
mod record;
#[cfg(feature = "engine")]
mod rounds;
mod schedule;
mod state;
mod table;
mod tree;
#[cfg(feature = "engine")]
mod world;

use std::error::Error;
use std::io::{self, Write};

const USAGE: &str = "usage: oracle command
       oracle check FILE...
       oracle generate CLASS SEED RUNS CALLS [binary|text|count]
       oracle replay [--no-state] FILE...
       oracle text FILE
       oracle count FILE...
       oracle pairs FILE...
with the engine (see build.sh):
       oracle compare CLASS SEED RUNS CALLS
       oracle groups SEED EPOCHS
       oracle sized N F SEED RUNS CALLS
       oracle bench REPEATS FILE...";

fn main() {
    // Panics of the original are caught and reported with the call; ours are to be seen.
    std::panic::set_hook(Box::new(|info| {
        if info.location().map_or(false, |place| place.file().starts_with("runs/")) {
            eprintln!("{}", info);
        }
    }));
    let args: Vec<String> = std::env::args().skip(1).collect();
    let args: Vec<&str> = args.iter().map(String::as_str).collect();
    if let Err(error) = start(&args) {
        eprintln!("{}", error);
        std::process::exit(1);
    }
}

fn start(args: &[&str]) -> Result<(), Box<dyn Error>> {
    match args {
        ["command"] => Ok(command::run()?),
        ["check", files @ ..] => {
            for file in files {
                let result = command::check(&std::fs::read_to_string(file)?);
                let compared = result.map_err(|text| format!("{}: {}", file, text))?;
                println!("{}: {} lines as expected", file, compared);
            }
            Ok(())
        }
        ["generate", class, seed, runs, calls] => generate([class, seed, runs, calls], "binary"),
        ["generate", class, seed, runs, calls, form] => generate([class, seed, runs, calls], form),
        #[cfg(feature = "engine")]
        ["compare", class, seed, runs, calls] => compare([class, seed, runs, calls]),
        #[cfg(feature = "engine")]
        ["groups", seed, epochs] => Ok(rounds::run(seed.parse()?, epochs.parse()?)?),
        #[cfg(feature = "engine")]
        ["sized", n, ahead, seed, runs, calls] => {
            let (seed, runs, calls) = (seed.parse()?, runs.parse()?, calls.parse()?);
            let records = bench::runs(n.parse()?, ahead.parse()?, seed, runs, calls)?;
            Ok(io::stdout().write_all(&record::bytes(&records))?)
        }
        #[cfg(feature = "engine")]
        ["bench", repeats, files @ ..] => {
            let repeats = repeats.parse()?;
            for file in files {
                bench::measure(file_name(file), &record::read(file)?, repeats)?;
            }
            Ok(())
        }
        ["replay", "--no-state", files @ ..] => replay(files, false),
        ["replay", files @ ..] => replay(files, true),
        ["text", file] => Ok(print!("{}", record::text(&record::read(file)?)?)),
        ["count", files @ ..] => {
            let mut columns = Vec::new();
            for file in files {
                columns.push((file.to_string(), count::count(&record::read(file)?)));
            }
            print_counts(&columns);
            Ok(())
        }
        ["pairs", files @ ..] => {
            for file in files {
                let common = pairs::common_batches(&record::read(file)?)?;
                println!("{}: {} batches in both runs of a pair, all equal", file, common);
            }
            Ok(())
        }
        _ => Err(USAGE.into()),
    }
}

/// Makes the runs of a class, or of all classes: these are dealt out in turn, two by two. Hands on
/// each run with its class's place in the list and name, and its index.
fn each_run(
    [class, seed, runs, calls]: [&str; 4],
    mut each: impl FnMut(usize, &str, u64, Vec<record::Record>) -> Result<(), Box<dyn Error>>,
) -> Result<Vec<&'static str>, Box<dyn Error>> {
    let found = generate::CLASSES.iter().find(|x| x.name == class);
    let chosen: Vec<&generate::Class> = match (class, found) {
        (_, Some(found)) => vec![found],
        ("all", _) => generate::CLASSES.iter().collect(),
        _ => return Err(USAGE.into()),
    };
    let (seed, runs, calls) = (seed.parse()?, runs.parse::<u64>()?, calls.parse()?);
    for index in 0..runs {
        let which = (index / 2) as usize % chosen.len();
        let place = index / 2 / chosen.len() as u64 * 2 + index % 2;
        let records = generate::run(chosen[which], seed, place, calls)
            .map_err(|trouble| format!("run {}: {}", index, trouble))?;
        each(which, chosen[which].name, index, records)?;
    }
    Ok(chosen.iter().map(|x| x.name).collect())
}

fn generate(what: [&str; 4], form: &str) -> Result<(), Box<dyn Error>> {
    let mut counts = vec![count::Counts::new(); generate::CLASSES.len()];
    let mut out = io::stdout();
    let names = each_run(what, |which, _, _, records| {
        match form {
            "binary" => out.write_all(&record::bytes(&records))?,
            "text" => out.write_all(record::text(&records)?.as_bytes())?,
            "count" => {
                for (row, number) in count::count(&records) {
                    *counts[which].entry(row).or_default() += number;
                }
            }
            _ => return Err(USAGE.into()),
        }
        Ok(())
    })?;
    if form == "count" {
        let columns: Vec<_> = names.iter().map(|name| name.to_string()).zip(counts).collect();
        print_counts(&columns);
    }
    Ok(())
}

/// Compares the engine with the original, on fresh runs.
#[cfg(feature = "engine")]
fn compare(what: [&str; 4]) -> Result<(), Box<dyn Error>> {
    let mut tally = compare::Tally::new();
    let mut different = 0;
    let seed = what[1].parse()?;
    each_run(what, |_, name, index, records| {
        if let Err((i, text)) = compare::run(&records, &[seed, index], &mut tally) {
            different += 1;
            println!("run {} ({}), record {}: {}", index, name, i, text);
            if different == 1 {
                println!("{}", record::calls(&records[..=i]).join("\n"));
            }
        }
        Ok(())
    })?;
    compare::print(&tally);
    println!("{} calls, {} runs with a difference", compare::calls(&tally), different);
    match different {
        0 => Ok(()),
        _ => Err("the engine and the original differ".into()),
    }
}

fn replay(files: &[&str], with_state: bool) -> Result<(), Box<dyn Error>> {
    for file in files {
        let records = record::read(file)?;
        record::replay(&records, with_state).map_err(|text| format!("{}: {}", file, text))?;
        println!("{}: {} records, no difference", file, records.len());
    }
    Ok(())
}

/// One row for each thing, one column for each class or file, and the sum.
fn print_counts(columns: &[(String, count::Counts)]) {
    let names: Vec<_> = columns.iter().map(|(name, _)| file_name(name)).collect();
    println!("| | {} | all |", names.join(" | "));
    println!("|---|{}", "--:|".repeat(columns.len() + 1));
    for row in count::rows() {
        let numbers: Vec<u64> =
            columns.iter().map(|(_, counts)| counts.get(&row).copied().unwrap_or(0)).collect();
        let texts: Vec<_> = numbers.iter().map(u64::to_string).collect();
        println!("| {} | {} | {} |", row, texts.join(" | "), numbers.iter().sum::<u64>());
    }
}

fn file_name(path: &str) -> &str {
    let name = path.rsplit('/').next().unwrap_or(path);
    name.strip_suffix(".bin").unwrap_or(name)
}
