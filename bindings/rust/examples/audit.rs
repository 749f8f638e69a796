//! Audits standard input under the plain scheme: `audit NAMESPACE KEY... < STREAM`. Each key has 64 hexadecimal digits. It ends
//! with 0 if the whole stream was read, 1 at a fault, 2 if the arguments are invalid, and 3 if reading, writing or memory
//! fails.

use simplex_audit::{audit, Committees, Error};
use std::ffi::{OsStr, OsString};
use std::io::{self, Read, Write};
use std::os::unix::ffi::OsStrExt;
use std::process::ExitCode;

fn key(text: &OsStr) -> Option<[u8; 32]> {
    let text = text.to_str().filter(|text| text.len() == 64 && text.bytes().all(|digit| digit.is_ascii_hexdigit()))?;
    let bytes: Vec<u8> = (0..32).filter_map(|i| u8::from_str_radix(&text[2 * i..2 * i + 2], 16).ok()).collect();
    bytes.try_into().ok()
}

/// The committee of the arguments.
fn committee(words: &[OsString]) -> Result<Committees, Error> {
    let (name, keys) = words.split_first().ok_or(Error::Arguments)?;
    let keys: Option<Vec<_>> = keys.iter().map(|word| key(word)).collect();
    Committees::plain(name.as_bytes(), &keys.ok_or(Error::Arguments)?)
}

/// Writes the report of standard input, and returns where its fault is, if there is one.
fn run(words: &[OsString]) -> Result<Option<usize>, (u8, &'static str)> {
    let refused = |error| match error {
        Error::Arguments | Error::Committees(_) => (2, "usage: audit NAMESPACE KEY..."),
        Error::OutOfMemory => (3, "audit: out of memory"),
    };
    let committees = committee(words).map_err(refused)?;
    let mut stream = Vec::new();
    io::stdin().read_to_end(&mut stream).map_err(|_| (3, "audit: read failed"))?;
    let report = audit(&committees, &stream).map_err(refused)?;
    io::stdout().write_all(report.text.as_bytes()).map_err(|_| (3, "audit: write failed"))?;
    Ok(report.fault)
}

fn main() -> ExitCode {
    let words: Vec<OsString> = std::env::args_os().skip(1).collect();
    match run(&words) {
        Ok(None) => ExitCode::SUCCESS,
        Ok(Some(place)) => {
            eprintln!("audit: fault at byte {place}");
            ExitCode::from(1)
        }
        Err((status, text)) => {
            eprintln!("{text}");
            ExitCode::from(status)
        }
    }
}
