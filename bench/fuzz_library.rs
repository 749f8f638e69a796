//! The calls of the static library (bindings/simplex_audit.h) that take streams. A call gets a short buffer first. If that does
//! not suffice, it is made again with one that just does.

use super::calls::{Committees, Report};
use super::exports::*;

/// What a call writes to a buffer, and its status. The call returns the status and the length that is needed.
fn written<T: Clone + Default>(length: usize, mut call: impl FnMut(&mut [T]) -> (u32, usize)) -> (u32, Vec<T>) {
    const SHORT: u32 = 4;
    let mut buffer = vec![T::default(); length];
    let (status, needed) = call(&mut buffer);
    assert_eq!(status == SHORT, needed > length);
    buffer.resize(needed, T::default());
    (if status == SHORT { call(&mut buffer).0 } else { status }, buffer)
}

/// What an audit or a list of records writes. The summary has the length that it needs at `count`.
fn read<T: Clone + Default>(
    count: fn(&Summary) -> usize, call: impl Fn(&mut [T], &mut Summary) -> u32,
) -> (Vec<T>, Summary) {
    let mut summary = Summary::default();
    let (status, buffer) = written(20, |buffer| (call(buffer, &mut summary), count(&summary)));
    assert!(status == summary.faulted as u32 && status < 2, "status {status}");
    (buffer, summary)
}

#[rustfmt::skip]
pub fn audit(committees: &Committees, stream: &[u8]) -> Report {
    let (sizes, keys) = (committees.sizes(), committees.keys());
    let (text, summary) = read(|summary| summary.length, |text: &mut [u8], summary| unsafe {
        match committees {
            Committees::Plain { base, epochs, .. } => simplex_audit_plain(
                base.as_ptr(), base.len(), epochs.as_ptr(), epochs.len(), sizes.as_ptr(), sizes.len(), keys.as_ptr(),
                keys.len(), stream.as_ptr(), stream.len(), text.as_mut_ptr(), text.len(), summary,
            ),
            Committees::Vouched { signature, epochs, .. } => simplex_audit(
                *signature as u32, epochs.as_ptr(), epochs.len(), sizes.as_ptr(), sizes.len(), stream.as_ptr(), stream.len(),
                text.as_mut_ptr(), text.len(), summary,
            ),
        }
    });
    Report { text: String::from_utf8(text).unwrap(), summary }
}

#[rustfmt::skip]
pub fn records(committees: &Committees, stream: &[u8]) -> (Vec<Record>, Summary) {
    let (sizes, keys) = (committees.sizes(), committees.keys());
    read(|summary| summary.evidence, |records: &mut [Record], summary| unsafe {
        match committees {
            Committees::Plain { base, epochs, .. } => simplex_records_plain(
                base.as_ptr(), base.len(), epochs.as_ptr(), epochs.len(), sizes.as_ptr(), sizes.len(), keys.as_ptr(),
                keys.len(), stream.as_ptr(), stream.len(), records.as_mut_ptr(), records.len(), summary,
            ),
            Committees::Vouched { signature, epochs, .. } => simplex_records(
                *signature as u32, epochs.as_ptr(), epochs.len(), sizes.as_ptr(), sizes.len(), stream.as_ptr(), stream.len(),
                records.as_mut_ptr(), records.len(), summary,
            ),
        }
    })
}

/// The plain scheme has no such call.
pub fn suspects(committees: &Committees, stream: &[u8]) -> Vec<Suspect> {
    let Committees::Vouched { signature, epochs, sizes } = committees else {
        return Vec::new();
    };
    let (status, suspects) = written(20, |buffer: &mut [Suspect]| {
        let (epochs, listed, sizes, many) = (epochs.as_ptr(), epochs.len(), sizes.as_ptr(), sizes.len());
        let (stream, length, to, room, mut needed) = (stream.as_ptr(), stream.len(), buffer.as_mut_ptr(), buffer.len(), 0);
        let size = *signature as u32;
        let status = unsafe { simplex_suspects(size, epochs, listed, sizes, many, stream, length, to, room, &mut needed) };
        (status, needed)
    });
    assert_eq!(status, 0);
    suspects
}

#[rustfmt::skip]
pub fn store(committees: &Committees, stored: &[u8], batch: &[u8]) -> Vec<u8> {
    let (sizes, keys) = (committees.sizes(), committees.keys());
    let (status, evidence) = written(20, |to: &mut [u8]| {
        let mut size = 0;
        let status = unsafe {
            match committees {
                Committees::Plain { base, epochs, .. } => simplex_store_plain(
                    base.as_ptr(), base.len(), epochs.as_ptr(), epochs.len(), sizes.as_ptr(), sizes.len(), keys.as_ptr(),
                    keys.len(), stored.as_ptr(), stored.len(), batch.as_ptr(), batch.len(), to.as_mut_ptr(), to.len(),
                    &mut size,
                ),
                Committees::Vouched { signature, epochs, .. } => simplex_store(
                    *signature as u32, epochs.as_ptr(), epochs.len(), sizes.as_ptr(), sizes.len(), stored.as_ptr(),
                    stored.len(), batch.as_ptr(), batch.len(), to.as_mut_ptr(), to.len(), &mut size,
                ),
            }
        };
        (status, size)
    });
    assert_eq!(status, 0);
    evidence
}

/// A row for each message, read under the bound of the greatest committee.
pub fn index(committees: &Committees, stream: &[u8]) -> (Vec<Row>, Summary) {
    let signature = match committees {
        Committees::Plain { .. } => 32,
        Committees::Vouched { signature, .. } => *signature as u32,
    };
    let (bound, mut summary) = (committees.greatest_size(), Summary::default());
    let (status, rows) = written(5, |rows: &mut [Row]| {
        let (stream, length, to, room) = (stream.as_ptr(), stream.len(), rows.as_mut_ptr(), rows.len());
        let status = unsafe { simplex_index(signature, bound, stream, length, to, room, &mut summary) };
        (status, summary.read)
    });
    assert!(status == summary.faulted as u32 && status < 2, "status {status}");
    (rows, summary)
}

pub fn class_of(epoch: u64, view: u64, seed: u64, classes: u32) -> u32 {
    unsafe { simplex_class_of(epoch, view, seed, classes) }
}

pub fn ranges(rows: &[Row], seed: u64, classes: u32, which: u32) -> Vec<Range> {
    let (status, ranges) = written(2, |ranges: &mut [Range]| {
        let (to, room, mut needed) = (ranges.as_mut_ptr(), ranges.len(), 0);
        let status = unsafe { simplex_ranges(rows.as_ptr(), rows.len(), seed, classes, which, to, room, &mut needed) };
        (status, needed)
    });
    assert_eq!(status, 0);
    ranges
}

#[rustfmt::skip]
pub fn audit_ranges(committees: &Committees, stream: &[u8], ranges: &[Range]) -> Report {
    let (sizes, keys) = (committees.sizes(), committees.keys());
    let (text, summary) = read(|summary| summary.length, |text: &mut [u8], summary| unsafe {
        match committees {
            Committees::Plain { base, epochs, .. } => simplex_audit_ranges_plain(
                base.as_ptr(), base.len(), epochs.as_ptr(), epochs.len(), sizes.as_ptr(), sizes.len(), keys.as_ptr(),
                keys.len(), stream.as_ptr(), stream.len(), ranges.as_ptr(), ranges.len(), text.as_mut_ptr(), text.len(), summary,
            ),
            Committees::Vouched { signature, epochs, .. } => simplex_audit_ranges(
                *signature as u32, epochs.as_ptr(), epochs.len(), sizes.as_ptr(), sizes.len(), stream.as_ptr(), stream.len(),
                ranges.as_ptr(), ranges.len(), text.as_mut_ptr(), text.len(), summary,
            ),
        }
    });
    Report { text: String::from_utf8(text).unwrap(), summary }
}
