//! A node that listens to votes and is killed now and then:
//!
//!     live PORT STATE PARTICIPANTS
//!
//! It connects to PORT on this machine and reads batches: four bytes with the batch's length, the first the lowest, and the
//! batch, whole messages with signatures of 64 bytes and verdicts. A batch that comes again changes nothing. It prints a line
//! for each evidence that a batch completes. Then it stores what it holds in the file STATE, and sends a byte. Started again,
//! it goes on from STATE, and prints what is in it again.

use simplex_audit::{Committees, Evidence, Monitor, Size};
use std::error::Error;
use std::fs::{read, rename, write};
use std::io::{self, ErrorKind, Read, Write};
use std::net::{Ipv4Addr, TcpStream};
use std::path::Path;

fn tell(evidence: Vec<Evidence>) -> io::Result<()> {
    let mut out = io::stdout().lock();
    for one in evidence {
        writeln!(out, "{}", one.line)?;
    }
    out.flush()
}

/// Stores first in another file, which then takes the place of STATE.
fn store(state: &Path, held: &[u8]) -> io::Result<()> {
    let other = state.with_extension("new");
    write(&other, held)?;
    rename(other, state)
}

/// The next batch, if the sender did not close the connection.
fn receive(sender: &mut TcpStream) -> io::Result<Option<Vec<u8>>> {
    let mut head = [0; 4];
    match sender.read_exact(&mut head) {
        Err(error) if error.kind() == ErrorKind::UnexpectedEof => return Ok(None),
        read => read?,
    }
    let mut batch = vec![0; u32::from_le_bytes(head) as usize];
    sender.read_exact(&mut batch)?;
    Ok(Some(batch))
}

fn main() -> Result<(), Box<dyn Error>> {
    let words: Vec<String> = std::env::args().skip(1).collect();
    let [port, state, participants] = &words[..] else {
        return Err("usage: live PORT STATE PARTICIPANTS".into());
    };
    let (state, committees) = (Path::new(state), Committees::every(Size::Bytes64, participants.parse()?)?);
    let held = if state.exists() { read(state)? } else { Vec::new() };
    let mut monitor = Monitor::resume(&committees, &held)?;
    tell(monitor.news()?)?;
    let mut sender = TcpStream::connect((Ipv4Addr::LOCALHOST, port.parse()?))?;
    while let Some(batch) = receive(&mut sender)? {
        tell(monitor.feed(&batch)?)?;
        store(state, &monitor.held()?)?;
        sender.write_all(b"\n")?;
    }
    Ok(())
}
