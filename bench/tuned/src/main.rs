//! The job of the two broker programs in plain Rust, tuned by hand: `tuned share` and `tuned class`.

#![forbid(unsafe_code)]

mod broker;
mod line;
mod price;
mod rank;
mod run;
mod text;
mod tree;

use std::fs::File;
use std::io::{self, Read};
use std::os::fd::AsFd;
use std::process::ExitCode;

const INPUT_LIMIT: u64 = 16_777_216;

fn main() -> ExitCode {
    let args: Vec<String> = std::env::args().skip(1).collect();
    let done = match args.iter().map(String::as_str).collect::<Vec<_>>()[..] {
        ["share"] => serve::<price::Share>(),
        ["class"] => serve::<price::ClassOverTaxed>(),
        _ => {
            eprintln!("usage: tuned share|class < events");
            return ExitCode::FAILURE;
        }
    };
    match done {
        Ok(()) => ExitCode::SUCCESS,
        Err(error) => {
            eprintln!("The run ended early: {error}.");
            ExitCode::FAILURE
        }
    }
}

fn serve<P: price::Price>() -> io::Result<()> {
    // As files, since `io::stdin` and `io::stdout` have buffers of their own.
    let from = File::from(io::stdin().as_fd().try_clone_to_owned()?);
    let to = File::from(io::stdout().as_fd().try_clone_to_owned()?);
    let mut input = Vec::with_capacity(INPUT_LIMIT as usize + line::ADDED);
    from.take(INPUT_LIMIT).read_to_end(&mut input)?;
    run::run::<P>(input, to)
}
