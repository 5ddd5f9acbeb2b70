//! What a recording tells, in words. What is told comes from the proved library alone; this program only puts it into words.

#![forbid(unsafe_code)]

mod arguments;
mod codes;
mod facts;
mod fields;
mod files;
mod frames;
mod listing;
mod page;
mod reasons;
mod record;
#[cfg(test)]
mod sample;
mod sha256;
mod transcript;
mod verdict;

use arguments::{Arguments, Asked};
use files::Input;
use std::ffi::OsStr;
use std::process::ExitCode;

/// Whoever runs this runs it by that script.
const NAME: &str = "scripts/explain";
const USAGE: &str = include_str!("../usage.txt");

/// Says why there is no explanation.
fn say(message: &str) {
    eprintln!("{NAME}: {message}");
}

fn main() -> ExitCode {
    let asked = match arguments::read(std::env::args_os().skip(1)) {
        Ok(asked) => asked,
        Err(wrong) => {
            say(&wrong);
            eprint!("{USAGE}");
            return ExitCode::from(2);
        }
    };
    let done = match asked {
        Asked::Help => files::write_out(USAGE),
        Asked::Explanation(arguments) => explain(&arguments),
    };
    match done {
        Ok(()) => ExitCode::SUCCESS,
        Err(message) => {
            if !message.is_empty() {
                say(&message);
            }
            ExitCode::FAILURE
        }
    }
}

fn explain(arguments: &Arguments) -> Result<(), String> {
    match &arguments.page {
        Some(out) => explain_on_page(arguments, out),
        None => explain_each(arguments),
    }
}

/// One transcript after the other. What is wrong with a file is said at once, and the others are explained all the same.
fn explain_each(arguments: &Arguments) -> Result<(), String> {
    let mut all_explained = Ok(());
    for (index, file) in arguments.files.iter().enumerate() {
        match files::read(file) {
            Ok(input) => {
                let space = if index == 0 { "" } else { "\n" };
                let text = transcript::transcript(&input, arguments.listed);
                files::write_out(&format!("{space}{text}"))?;
            }
            Err(message) => {
                say(&message);
                all_explained = Err(String::new());
            }
        }
    }
    all_explained
}

fn explain_on_page(arguments: &Arguments, out: &OsStr) -> Result<(), String> {
    let file = &arguments.files[0];
    let input = files::read(file)?;
    let page = page::page(&input, arguments.listed);
    if out == "-" {
        return files::write_out(&page);
    }
    files::write_page(out, file, &page)?;
    files::write_out(&written_line(&input, out))
}

fn written_line(input: &Input, out: &OsStr) -> String {
    let answer = verdict::answer(&facts::facts(&input.bytes));
    format!(
        "{}: {answer}; written to {}\n",
        input.name,
        files::shown(out)
    )
}
