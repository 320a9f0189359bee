//! The program `scimem` once more, in plain Rust: the same words, inputs and outputs. It is there to compare speeds.
//!
//!     plain oracle | replay | threads [--turns T] | audit | upgrade | decode
//!     plain circle TIMES
//!     plain hop TIMES

mod audit;
mod digits;
mod hop;
mod machine;
mod memory;
mod node;
mod packet;
mod policy;
mod run;
mod station;
mod text;

use std::env;
use std::io::{self, Write};
use std::process::ExitCode;
use text::{Kind, Refused};

const MOST_TURNS: u32 = 1_000_000_000;
const USAGE: &str =
    "usage: plain oracle | replay | threads [--turns T] | audit | upgrade | decode | circle TIMES";

/// The text that a command writes, and its status.
type Answer = Result<(Vec<u8>, u8), Refused>;

fn answer(words: &[&str], input: &[u8]) -> Option<Answer> {
    Some(match words {
        ["oracle"] => text::read_script(input).map(|script| {
            let text::Size { nodes, lines, .. } = script.size;
            (text::logs_text(&memory::oracle(nodes, lines, &script.operations)), 0)
        }),
        ["replay"] => text::read_schedule(input).map(|(size, events)| {
            let mut machine = machine::Machine::new(size);
            for event in &events {
                machine.apply(event);
            }
            (text::logs_text(&machine.into_logs()), 0)
        }),
        ["threads"] => threads(input, MOST_TURNS),
        ["threads", "--turns", turns] => {
            let is_number = turns.starts_with(|it| ('1'..='9').contains(&it));
            let turns = turns.parse().ok().filter(|it| (1..=MOST_TURNS).contains(it))?;
            if !is_number {
                return None;
            }
            threads(input, turns)
        }
        ["audit"] => text::read_logs(input).map(|logs| match audit::audit(&logs) {
            Some(fault) => (format!("{fault}\n").into_bytes(), 1),
            None => (b"lawful\n".to_vec(), 0),
        }),
        ["upgrade"] => text::read_logs(input).map(|logs| (text::logs_text(&logs), 0)),
        ["circle", times] => {
            let times = times.parse().ok()?;
            text::read_script(input).map(|script| {
                run::timed_circles(&script, times);
                (Vec::new(), 0)
            })
        }
        _ => return None,
    })
}

fn threads(input: &[u8], turns: u32) -> Answer {
    let script = text::read_script(input)?;
    let (logs, finished) = run::threads(&script, turns);
    Ok((text::logs_text(&logs), u8::from(!finished)))
}

fn decoded(input: Result<Vec<u8>, Kind>) -> (Vec<u8>, u8) {
    match input {
        Ok(input) => {
            let (out, is_whole) = packet::decode_text(&input);
            (out, if is_whole { 0 } else { 2 })
        }
        Err(kind) => (format!("refused at byte 0: {}\n", kind.name()).into_bytes(), 2),
    }
}

fn main() -> ExitCode {
    let words: Vec<String> = env::args().skip(1).collect();
    let words: Vec<&str> = words.iter().map(String::as_str).collect();
    if let ["hop", times] = words[..] {
        println!("{:.1} ns", hop::nanoseconds(times.parse().unwrap_or(1)));
        return ExitCode::SUCCESS;
    }
    let commands = ["oracle", "replay", "threads", "audit", "upgrade", "decode", "circle"];
    if !words.first().is_some_and(|it| commands.contains(it)) {
        eprintln!("{USAGE}");
        return ExitCode::from(2);
    }
    let input = text::read_input();
    let (out, status) = if words == ["decode"] {
        decoded(input)
    } else {
        let found = match input {
            Ok(input) => answer(&words, &input),
            Err(kind) => Some(Err(Refused { line: 0, kind })),
        };
        match found {
            Some(Ok(answer)) => answer,
            Some(Err(Refused { line, kind })) => {
                (format!("refused at line {line}: {}\n", kind.name()).into_bytes(), 2)
            }
            None => {
                eprintln!("{USAGE}");
                return ExitCode::from(2);
            }
        }
    };
    match io::stdout().write_all(&out) {
        Ok(()) => ExitCode::from(status),
        Err(_) => ExitCode::from(2),
    }
}
