//! Makes the inputs, compares the answers, and does one piece of work for a counter.
//!
//!   driver inputs FOLDER LARGEST          writes the inputs, the largest of so many thousand bytes
//!   driver check FOLDER                   stops where answers differ, and else writes for each row
//!                                         its label, input, unit, units and workers
//!   driver work WORKER LABEL FILE ROUNDS  does the work of a row on the file
//!   driver time LABEL FILE                writes for each worker of a row the label, its name, and
//!                                         the nanoseconds that a round takes
mod inputs;
mod prost_peer;
mod prost_reports;
mod random;
mod report_inputs;
mod rows;
mod times;

use rows::Row;
use std::error::Error;
use std::fs;
use std::path::Path;
use std::process::ExitCode;

const LEVELS: [u64; 5] = [1, 10, 25, 50, 100];

fn main() -> ExitCode {
    let args: Vec<String> = std::env::args().skip(1).collect();
    match run(&args) {
        Ok(()) => ExitCode::SUCCESS,
        Err(error) => {
            eprintln!("{error}");
            ExitCode::FAILURE
        }
    }
}

fn run(args: &[String]) -> Result<(), Box<dyn Error>> {
    let args: Vec<&str> = args.iter().map(String::as_str).collect();
    match args[..] {
        ["inputs", folder, largest] => write_inputs(Path::new(folder), largest.parse()?),
        ["check", folder] => check(Path::new(folder)),
        ["work", worker, label, file, rounds] => work(worker, label, file, rounds.parse()?),
        ["time", label, file] => time(label, file),
        _ => Err("what it does stands at the head of main.rs".into()),
    }
}

fn write_inputs(folder: &Path, largest: usize) -> Result<(), Box<dyn Error>> {
    for row in Row::all() {
        fs::write(folder.join(row.input), inputs::named(row.input).bytes)?;
    }
    for levels in LEVELS {
        fs::write(
            folder.join(format!("nested{levels}")),
            inputs::nested(levels),
        )?;
    }
    let mut thousands = 1;
    while thousands <= largest {
        let name = format!("thousands{thousands}");
        fs::write(folder.join(name), inputs::thousands(thousands))?;
        thousands *= 10;
    }
    Ok(())
}

fn check(folder: &Path) -> Result<(), Box<dyn Error>> {
    for row in Row::all() {
        agree(row, &folder.join(row.input))?;
        let workers: Vec<&str> = row.works().map(|(worker, _)| worker).collect();
        let workers = workers.join(" ");
        let units = inputs::named(row.input).units;
        let (label, input, unit) = (row.label, row.input, row.unit);
        println!("{label}\t{input}\t{unit}\t{units}\t{workers}");
    }
    let node = Row::labelled("decode node").ok_or("no row decodes a node")?;
    for levels in LEVELS {
        agree(node, &folder.join(format!("nested{levels}")))?;
    }
    Ok(())
}

// An answer of 0 says that a worker was refused, and is right for no input.
fn agree(row: &Row, input: &Path) -> Result<(), Box<dyn Error>> {
    let bytes = fs::read(input)?;
    let mut answers = Vec::new();
    for (worker, work) in row.works() {
        answers.push((worker, work(&bytes, 2)));
    }
    let right = answers[0].1;
    if answers
        .iter()
        .any(|(_, answer)| *answer != right || right == 0)
    {
        let input = input.display();
        return Err(format!("{} of {input}: {answers:?}", row.label).into());
    }
    Ok(())
}

fn work(worker: &str, label: &str, file: &str, rounds: u32) -> Result<(), Box<dyn Error>> {
    let row = Row::labelled(label).ok_or("no such row")?;
    let work = row.work_of(worker).ok_or("no such worker")?;
    let bytes = fs::read(file)?;
    std::hint::black_box(work(&bytes, rounds));
    Ok(())
}

fn time(label: &str, file: &str) -> Result<(), Box<dyn Error>> {
    let row = Row::labelled(label).ok_or("no such row")?;
    let bytes = fs::read(file)?;
    for (worker, nanoseconds) in times::times(row, &bytes) {
        println!("{label}\t{worker}\t{nanoseconds:.0}");
    }
    Ok(())
}
