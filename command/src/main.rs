//! `hatchery`: files, threads and reports around the proved read corrector.
#![deny(unsafe_code)]

mod ask;
mod bridge;
mod cli;
mod correct;
mod counts;
mod edits;
mod error;
mod html;
mod input;
mod job;
mod lent;
mod library;
mod make;
mod output;
mod parts;
mod pool;
mod progress;
mod records;
mod report;
mod split;
mod totals;
mod words;

use clap::Parser;
use cli::{Cli, Command};
use error::{say, Result};
use std::process::ExitCode;

fn main() -> ExitCode {
    match run(&Cli::parse().command) {
        Ok(()) => ExitCode::SUCCESS,
        Err(error) => {
            say(format!("hatchery: {error}"));
            ExitCode::from(error.status())
        }
    }
}

fn run(command: &Command) -> Result<()> {
    match command {
        Command::Set(args) => make::run(args),
        Command::Open(args) => ask::open(args),
        Command::Correct(args) => correct::run(args),
        Command::Needs(args) => ask::needs(args),
        Command::Solid(args) => ask::solid(args),
        Command::Edits(args) => edits::run(args),
        Command::Bridge(args) => bridge::run(args),
        Command::Report(args) => report::run(args),
        Command::Split(args) => split::run(args),
    }
}
