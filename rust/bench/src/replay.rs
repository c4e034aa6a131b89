//! The table of the replay program.

use crate::day::Day;
use crate::measure::median;
use crate::report::{grouped, Table};
use std::env::current_exe;
use std::fs::File;
use std::io::{self, stdin, stdout, Read};
use std::path::Path;
use std::process::{Command, ExitCode, Stdio};
use std::time::Instant;

const ROUNDS: usize = 9;

/// Live orders, about.
const LIVE: [usize; 3] = [100, 500, 1_000];

/// The word by which this program is the second program's replay.
pub const SECOND: &str = "second-replay";

/// What this program does by that word.
pub fn second() -> ExitCode {
    match second::replay::replay(stdin().lock(), stdout().lock()) {
        Ok(()) => ExitCode::SUCCESS,
        Err(_) => ExitCode::FAILURE,
    }
}

/// Nanoseconds, and the records written.
type Timed = (f64, Vec<u8>);

/// Prints the table; false if the records ever differ, or there is no replay program.
pub fn table(rounds: Option<usize>) -> bool {
    let rounds = rounds.unwrap_or(ROUNDS);
    let program = match streams::replay_program() {
        Ok(program) => program,
        Err(advice) => {
            println!("{advice}");
            return false;
        }
    };
    heading(rounds);
    let table = Table::new(
        &[("live orders", 0), ("messages", 9), ("MB", 5)],
        &["Rust", "in process"],
        &["product: messages/s", "MB/s", "Rust: messages/s", "MB/s"],
    );
    for live in LIVE {
        let day = Day::written(live).expect("a file can be written");
        let times = measure(&program, &day.path, rounds).expect("the programs can be run");
        let Some(times) = times else {
            println!("the records differ");
            return false;
        };
        print(&table, live, &day, times);
    }
    true
}

fn print(table: &Table, live: usize, day: &Day, times: [f64; 3]) {
    let megabytes = day.bytes as f64 / 1e6;
    let a_second = |time: f64| [day.messages as f64 / (time / 1e9), megabytes / (time / 1e9)];
    let throughput = [times[0], times[1]].map(a_second);
    let labels = [
        grouped(live as u64),
        grouped(day.messages),
        format!("{megabytes:.1}"),
    ];
    table.row(
        &labels.each_ref().map(String::as_str),
        &times.map(|time| time / day.messages as f64),
        &throughput
            .as_flattened()
            .iter()
            .map(|&n| grouped(n as u64))
            .collect::<Vec<_>>(),
    );
}

fn heading(rounds: usize) {
    println!(
        "One run of a whole file, from the start of the program to its end: blocks in, records"
    );
    println!("out, over a book of 1,024 slots and a directory of 2,048.");
    println!("product:    the replay program");
    println!("Rust:       the second program's replay as a program: a hash map of orders by their");
    println!("            references, no slots, and no map of live ones");
    println!("in process: the same as a call within this program");
    println!(
        "A day's mix over 256 stocks, orders chosen at random, about so many of them live; all"
    );
    println!(
        "messages are accepted. The file was written just before and is read from memory; the"
    );
    println!(
        "records come by a pipe, and are compared. The three in turn, {rounds} rounds each, the"
    );
    println!("median, in ns per message; ratio: product / Rust, product / in process.");
    println!();
}

/// Medians of the whole time in nanoseconds; none if the records ever differ.
fn measure(program: &Path, path: &Path, rounds: usize) -> io::Result<Option<[f64; 3]>> {
    let mut times: [Vec<f64>; 3] = Default::default();
    let this = current_exe()?;
    for _ in 0..rounds {
        let turns = [
            as_program(&mut Command::new(program), path)?,
            as_program(Command::new(&this).arg(SECOND), path)?,
            in_process(path)?,
        ];
        if turns.iter().any(|(_, records)| *records != turns[0].1) {
            return Ok(None);
        }
        for (times, (time, _)) in times.iter_mut().zip(turns) {
            times.push(time);
        }
    }
    Ok(Some(times.map(median)))
}

fn as_program(command: &mut Command, path: &Path) -> io::Result<Timed> {
    let command = command.stdin(File::open(path)?).stdout(Stdio::piped());
    let start = Instant::now();
    let mut child = command.spawn()?;
    let mut records = vec![];
    let mut output = child.stdout.take().expect("a pipe");
    output.read_to_end(&mut records)?;
    child.wait()?;
    Ok((start.elapsed().as_nanos() as f64, records))
}

fn in_process(path: &Path) -> io::Result<Timed> {
    let input = File::open(path)?;
    let start = Instant::now();
    let mut records = vec![];
    second::replay::replay(input, &mut records)?;
    Ok((start.elapsed().as_nanos() as f64, records))
}
