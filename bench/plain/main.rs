// A baseline for speed and a second opinion on histories, trusted by nothing: the program's rules in plain Rust.
//     rustc -O -C target-cpu=x86-64 --edition 2021 bench/plain/main.rs -o plain
#![forbid(unsafe_code)]

mod accesses;
mod commands;
mod frames;
mod generator;
mod maps;
mod objects;
mod outside;
mod page;
mod pagers;
mod ports;
mod script;
mod shared;
mod steps;
mod system;
mod text;

use std::io::{self, Read, Write};
use std::process::ExitCode;

use script::{Command, Fault, Script, MOST_BYTES};
use system::System;
use text::Out;

const USAGE: &str = "usage: pagers run | summary | generate NUMBER LINES\n";
const MOST_EVENTS: u32 = 200_000;

enum Status {
    Done = 0,
    BadScript = 1,
    Usage = 2,
    ReadFault = 3,
    OutputFault = 4,
    EventLimit = 5,
    LeftOut = 64,
}

fn main() -> ExitCode {
    let words: Vec<String> = std::env::args_os().skip(1).map(|it| it.into_string().unwrap_or_default()).collect();
    let words: Vec<&str> = words.iter().map(String::as_str).collect();
    let status = match words[..] {
        ["run"] => run_source(true),
        ["summary"] => run_source(false),
        ["generate", number, lines] => match asked(number, lines) {
            Some((number, lines)) => run(&generator::make_script(number, lines), false),
            None => tell(USAGE, Status::Usage),
        },
        _ => tell(USAGE, Status::Usage),
    };
    ExitCode::from(status as u8)
}

fn asked(number: &str, lines: &str) -> Option<(u64, u32)> {
    if number.len() > 20 || lines.len() > 5 {
        return None;
    }
    let lines = script::number_in(lines.as_bytes(), 1, 10_000).ok()?;
    Some((script::number_of(number.as_bytes()).ok()?, lines as u32))
}

fn tell(text: &str, status: Status) -> Status {
    let mut sink = io::stdout().lock();
    match sink.write_all(text.as_bytes()).and_then(|()| sink.flush()) {
        Ok(()) => status,
        Err(_) => Status::OutputFault,
    }
}

fn run_source(shows: bool) -> Status {
    let mut bytes = Vec::new();
    if io::stdin().lock().take(MOST_BYTES as u64 + 1).read_to_end(&mut bytes).is_err() {
        return Status::ReadFault;
    }
    match Script::read(&bytes) {
        Err((line, fault)) => tell(&format!("bad {line} {} {fault:?}\n", number_of(fault)), Status::BadScript),
        Ok(Script { wild: Some(line), .. }) => {
            eprintln!("line {line}: this baseline leaves wild objects out");
            Status::LeftOut
        }
        Ok(script) => run(&script, shows),
    }
}

fn number_of(fault: Fault) -> u8 {
    fault as u8
}

fn run(script: &Script, shows: bool) -> Status {
    let mut system = System::new(script, Out::new(shows));
    let status = match run_all(script, &mut system) {
        Err(_) => return Status::OutputFault,
        Ok(true) => Status::Done,
        Ok(false) => Status::EventLimit,
    };
    if shows {
        status
    } else {
        tell(&system.out.summary(), status)
    }
}

// Whether all steps were made: false where the history is full in front of one.
fn run_all(script: &Script, system: &mut System) -> io::Result<bool> {
    for (line, command) in &script.commands {
        if system.out.events >= MOST_EVENTS {
            return Ok(false);
        }
        system.step(*line, command);
        system.out.end_step()?;
        let Command::Settle { count } = command else { continue };
        for _ in 0..*count {
            if system.is_quiet() {
                break;
            }
            if system.out.events >= MOST_EVENTS {
                return Ok(false);
            }
            system.take_oldest();
            system.out.end_step()?;
        }
    }
    Ok(true)
}
