//! The rules of Forgesilver as an ordinary program, to measure the proved one beside it.
//!
//! `plain run SCRIPT|- [--config FILE]` plays a script as `lpt run` does, and prints the same text.
//! It was written from docs/SCRIPT.md and docs/FORMATS.md.

mod command;
mod config;
mod link;
mod memory;
mod names;
mod node;
mod packet;
mod session;
mod transfer;
mod work;
mod world;

use config::{Config, LONGEST_CONFIG};
use session::Session;
use std::ffi::OsString;
use std::fs::File;
use std::io::{self, BufRead, BufReader, BufWriter, Read, Write};
use std::process::ExitCode;

const LONGEST_SCRIPT: u64 = 16_777_216;
const LONGEST_LINE: u64 = 140_000;

const DONE: u8 = 0;
const REFUSED: u8 = 1;
const UNREADABLE: u8 = 2;
const FAILED: u8 = 3;

/// How a run ends before its end: its status, and what is told of it.
struct End(u8, String);

fn main() -> ExitCode {
    let words: Vec<OsString> = std::env::args_os().skip(1).collect();
    let words: Option<Vec<&str>> = words.iter().map(|word| word.to_str()).collect();
    let status = run(&words.unwrap_or_default()).unwrap_or_else(|End(status, complaint)| {
        eprintln!("{complaint}");
        status
    });
    ExitCode::from(status)
}

fn run(words: &[&str]) -> Result<u8, End> {
    let (script, config) = match *words {
        ["run", script] => (script, Config::default()),
        ["run", script, "--config", file] | ["run", "--config", file, script] => {
            (script, read_config(file)?)
        }
        _ => return Err(End(UNREADABLE, "usage: plain run SCRIPT|- [--config FILE]".into())),
    };
    let script: Box<dyn Read> = match script {
        "-" => Box::new(io::stdin()),
        path => Box::new(File::open(path).map_err(|error| unread(path, error))?),
    };
    let out = BufWriter::with_capacity(1 << 16, io::stdout().lock());
    play(BufReader::with_capacity(1 << 16, script), Session::new(config, out))
}

fn read_config(path: &str) -> Result<Config, End> {
    let mut octets = Vec::new();
    let file = File::open(path).map_err(|error| unread(path, error))?;
    let limit = LONGEST_CONFIG as u64 + 1;
    file.take(limit).read_to_end(&mut octets).map_err(|error| unread(path, error))?;
    let text = std::str::from_utf8(&octets).ok().filter(|text| text.len() <= LONGEST_CONFIG);
    let config = text.and_then(Config::read);
    config.ok_or_else(|| End(UNREADABLE, format!("config refused\nplain: {path}")))
}

/// Plays a script to its end. Before more of it is awaited, all whole lines have been answered.
fn play(mut script: BufReader<impl Read>, mut session: Session<impl Write>) -> Result<u8, End> {
    let mut left = LONGEST_SCRIPT;
    let mut line = Vec::new();
    for number in 1u64.. {
        if !script.buffer().contains(&b'\n') {
            session.out.flush().map_err(unwritten)?;
        }
        line.clear();
        let limit = left.min(LONGEST_LINE + 1);
        let read = (&mut script).take(limit).read_until(b'\n', &mut line);
        left -= read.map_err(|error| unread("the script", error))? as u64;
        if line.last() == Some(&b'\n') {
            line.pop();
            if line.last() == Some(&b'\r') {
                line.pop();
            }
        } else if line.len() as u64 <= LONGEST_LINE {
            let rest = script.fill_buf().map_err(|error| unread("the script", error))?;
            if !rest.is_empty() {
                let complaint = format!("Read\nplain: more than {LONGEST_SCRIPT} octets");
                return Err(End(FAILED, complaint));
            }
            if line.is_empty() {
                break;
            }
        }
        let is_read = line.len() as u64 <= LONGEST_LINE && session.run(&line).map_err(unwritten)?;
        if !is_read {
            writeln!(session.out, "line {number}: unreadable").map_err(unwritten)?;
            session.out.flush().map_err(unwritten)?;
            return Ok(UNREADABLE);
        }
    }
    session.out.flush().map_err(unwritten)?;
    Ok(if session.was_refused { REFUSED } else { DONE })
}

fn unread(path: &str, error: io::Error) -> End {
    End(FAILED, format!("Read\nplain: {path}: {error}"))
}

fn unwritten(error: io::Error) -> End {
    End(FAILED, format!("Write\nplain: {error}"))
}
