//! A plain program that does what `gazette replay -` does with journals, publishes, settles and applies, without
//! members. It is what `bench/compare` holds the proved program against.
//!
//! `plain replay` reads a scenario from standard input and writes its report; `plain read` reads the same lines as
//! events, and does nothing else.
mod event;
mod json;
mod line;
mod world;

use event::event_of;
use json::Fault;
use std::io::{self, BufRead, Write};
use std::process::ExitCode;
use world::World;

/// How a run ends before its time.
enum End {
    Refused(usize, Fault),
    Failed(io::Error),
}

impl From<io::Error> for End {
    fn from(error: io::Error) -> Self {
        End::Failed(error)
    }
}

/// Gives each line with its number, from 1, to `take`.
fn each_line(mut take: impl FnMut(usize, &str) -> Result<(), Fault>) -> Result<(), End> {
    let mut input = io::stdin().lock();
    let mut line = Vec::new();
    for number in 1.. {
        line.clear();
        if input.read_until(b'\n', &mut line)? == 0 {
            break;
        }
        let text = std::str::from_utf8(&line).map_err(|_| End::Refused(number, Fault::NotJson))?;
        take(number, text).map_err(|fault| End::Refused(number, fault))?;
    }
    Ok(())
}

fn replay() -> Result<Vec<u8>, End> {
    let mut world = World::default();
    each_line(|number, line| {
        world.apply(number, event_of(line)?);
        Ok(())
    })?;
    Ok(world.report())
}

fn read() -> Result<Vec<u8>, End> {
    let mut lines = 0;
    each_line(|number, line| {
        event_of(line)?;
        lines = number;
        Ok(())
    })?;
    Ok(format!("{lines}\n").into_bytes())
}

fn main() -> ExitCode {
    let done = match std::env::args().nth(1).as_deref() {
        Some("replay") => replay(),
        Some("read") => read(),
        _ => return ExitCode::from(2),
    };
    match done.and_then(|report| Ok(io::stdout().write_all(&report)?)) {
        Ok(()) => ExitCode::SUCCESS,
        Err(End::Refused(number, fault)) => {
            println!("line {number}: {fault}");
            ExitCode::from(3)
        }
        Err(End::Failed(error)) => {
            eprintln!("{error}");
            ExitCode::from(4)
        }
    }
}
