//! An independent second program for documents 01 and 02, compared with the proved library.

#![deny(unsafe_code)]

mod alarms;
mod bank;
mod benchmark;
mod board;
mod command;
mod comparison;
mod controller;
mod drum;
mod enumeration;
mod fault;
mod fields;
mod frame;
mod generate;
mod interface;
mod judge;
#[cfg(test)]
mod judge_by_definition;
mod known;
#[cfg(test)]
mod known_by_definition;
mod library;
mod modbus;
mod numbers;
mod panel;
mod parameters;
mod planted;
mod random;
mod record;
mod recording;
mod run;
mod several;
mod stored;
mod totals;
#[cfg(test)]
mod worked_examples;

use run::Amounts;
use std::process::ExitCode;

const USAGE: &str =
    "compare [faults | benchmark | counted] [--calls N] [--recordings N] [--seed N]";

enum Task {
    Compare,
    Faults,
    Benchmark,
    Counted,
}

fn read_arguments() -> Option<(Task, Amounts)> {
    let mut task = Task::Compare;
    let mut amounts = Amounts::default();
    let mut arguments = std::env::args().skip(1);
    while let Some(argument) = arguments.next() {
        match argument.as_str() {
            "faults" => task = Task::Faults,
            "benchmark" => task = Task::Benchmark,
            "counted" => task = Task::Counted,
            "--calls" => amounts.calls = arguments.next()?.parse().ok()?,
            "--recordings" => amounts.recordings = arguments.next()?.parse().ok()?,
            "--seed" => amounts.seed = arguments.next()?.parse().ok()?,
            _ => return None,
        }
    }
    Some((task, amounts))
}

fn compare(amounts: Amounts) -> bool {
    match run::run(fault::Fault::None, amounts, true) {
        (counts, Ok(())) => {
            println!("{counts}: no difference");
            true
        }
        (counts, Err(difference)) => {
            println!("difference in {difference}{counts}: a difference");
            false
        }
    }
}

fn main() -> ExitCode {
    let Some((task, amounts)) = read_arguments() else {
        eprintln!("usage: {USAGE}");
        return ExitCode::from(2);
    };
    let passed = match task {
        Task::Compare => compare(amounts),
        Task::Faults => planted::every_fault_is_caught(amounts),
        Task::Benchmark => {
            benchmark::timed(amounts.seed);
            true
        }
        Task::Counted => {
            benchmark::counted(amounts.seed);
            true
        }
    };
    if passed {
        ExitCode::SUCCESS
    } else {
        ExitCode::FAILURE
    }
}
