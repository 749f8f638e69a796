//! Compares the static library with the auditor by hand, on random and mutated streams: `fuzz SECONDS THREADS SEED`. It ends
//! with status 1 at the first stream on which they differ, and prints it. Built with `--cfg alone` it compares the auditor by
//! hand with that of the folder `right`, so that a wrong auditor can be tried without the library.

#[cfg(not(alone))]
#[path = "fuzz_batches.rs"]
mod batches;
#[path = "fuzz_by_hand.rs"]
mod by_hand;
#[path = "fuzz_calls.rs"]
mod calls;
#[allow(dead_code)]
#[path = "../bindings/rust/src/exports.rs"]
mod exports;
#[cfg(not(alone))]
#[path = "fuzz_library.rs"]
mod library;
#[cfg(alone)]
#[allow(dead_code)]
#[path = "right/fuzz_by_hand.rs"]
mod library;
#[cfg(not(alone))]
#[path = "fuzz_shards.rs"]
mod shards;
#[path = "fuzz_streams.rs"]
mod streams;

use calls::Committees;
use exports::Range;
use std::fmt::{Debug, Write};
use std::sync::atomic::{AtomicBool, AtomicU64, Ordering};
use std::time::{Duration, Instant};
use streams::{Random, mutate};

/// How many streams are tried of the same committees.
const STREAMS: u64 = 8;

/// One in so many streams is audited by the Rust crate in threads too, and each in batches.
#[cfg(not(alone))]
const BY_CRATE: u64 = 4;

/// How many streams were compared, of how many the reports have lines, splits or a fault, and how many the crate audited in threads.
#[derive(Default)]
struct Counts {
    streams: AtomicU64,
    lines: AtomicU64,
    splits: AtomicU64,
    faults: AtomicU64,
    by_crate: AtomicU64,
}

fn hexadecimal(bytes: &[u8]) -> String {
    bytes.iter().fold(String::new(), |mut text, byte| {
        write!(text, "{byte:02x}").unwrap();
        text
    })
}

/// Nothing if both are equal, else what shows the difference.
fn equal<T: PartialEq + Debug>(call: &str, library: T, by_hand: T) -> Result<(), String> {
    if library == by_hand { Ok(()) } else { Err(format!("{call}\nlibrary: {library:?}\nby hand: {by_hand:?}")) }
}

/// The lines of evidence of a report. What is stored gives them again, but not the splits.
fn evidence(report: &calls::Report) -> Vec<String> {
    report.text.lines().take(report.summary.evidence).map(str::to_owned).collect()
}

/// An audit, the records, and what is stored of the whole stream, which gives the same evidence again and is stored as it is.
fn compare_report(committees: &Committees, stream: &[u8], counts: &Counts) -> Result<(), String> {
    let report = library::audit(committees, stream);
    for (count, is_so) in [
        (&counts.streams, true),
        (&counts.lines, report.summary.evidence > 0),
        (&counts.splits, report.summary.splits > 0),
        (&counts.faults, report.summary.faulted > 0),
    ] {
        count.fetch_add(u64::from(is_so), Ordering::Relaxed);
    }
    equal("audit", &report, &by_hand::audit(committees, stream))?;
    equal("records", library::records(committees, stream), by_hand::records(committees, stream))?;
    let stored = library::store(committees, &[], stream);
    equal("store", &stored, &by_hand::store(committees, &[], stream))?;
    for (old, new) in [(&stored[..], &[][..]), (&[], &stored), (&stored, &stored)] {
        equal("store what is stored", &library::store(committees, old, new), &stored)?;
    }
    let again = library::audit(committees, &stored);
    equal("audit what is stored", (evidence(&again), again.summary.faulted), (evidence(&report), 0))
}

/// What is stored of a stream in two batches; and of the second batch if what is stored was damaged, or cut and the rest of it
/// stands before the batch.
fn compare_batches(random: &mut Random, committees: &Committees, stream: &[u8]) -> Result<(), String> {
    let (first, second) = stream.split_at(random.below(stream.len() as u64 + 1) as usize);
    let mut stored = library::store(committees, &[], first);
    equal("store the second batch", library::store(committees, &stored, second), by_hand::store(committees, &stored, second))?;
    let both = [&stored, second].concat();
    equal("records of both batches", library::records(committees, &both), by_hand::records(committees, &both))?;
    let (cut, rest) = stored.split_at(random.below(stored.len() as u64 + 1) as usize);
    let behind = [rest, second].concat();
    equal("store behind a cut", library::store(committees, cut, &behind), by_hand::store(committees, cut, &behind))?;
    mutate(random, &mut stored);
    equal("store behind damage", library::store(committees, &stored, second), by_hand::store(committees, &stored, second))
}

/// The attestations that have to be verified, and the report with any verdicts of the others.
fn compare_suspects(random: &mut Random, committees: &Committees, stream: &[u8]) -> Result<(), String> {
    let suspects = library::suspects(committees, stream);
    equal("suspects", &suspects, &by_hand::suspects(committees, stream))?;
    let mut others = stream.to_vec();
    for place in by_hand::verdict_places(committees, stream) {
        others[place] = random.pick(&[0, 1, 2, 255]);
    }
    equal("suspects with other verdicts", &library::suspects(committees, &others), &suspects)?;
    for suspect in suspects {
        others[suspect.place.verdict_place] = stream[suspect.place.verdict_place];
    }
    equal("audit with other verdicts", library::audit(committees, &others), by_hand::audit(committees, stream))
}

/// The rows, the ranges of each class and their reports; and the report of ranges that cut messages or come twice.
fn compare_parts(random: &mut Random, committees: &Committees, stream: &[u8]) -> Result<(), String> {
    let (rows, summary) = library::index(committees, stream);
    equal("index", (rows.clone(), summary), by_hand::index(committees, stream))?;
    let (seed, classes) = (random.next(), if random.one_in(16) { 64 } else { 1 + random.below(5) as u32 });
    for row in &rows {
        let class = by_hand::class_of(row.epoch, row.view, seed, classes);
        equal("class_of", library::class_of(row.epoch, row.view, seed, classes), class)?;
    }
    for which in 0..classes {
        let ranges = library::ranges(&rows, seed, classes, which);
        equal("ranges", &ranges, &by_hand::ranges(&rows, seed, classes, which))?;
        let report = by_hand::audit_ranges(committees, stream, &ranges);
        equal("audit_ranges", library::audit_ranges(committees, stream, &ranges), report)?;
    }
    let any: Vec<Range> = (0..random.below(5)).map(|_| any_range(random, stream.len())).collect();
    let report = by_hand::audit_ranges(committees, stream, &any);
    equal("audit_ranges of any", library::audit_ranges(committees, stream, &any), report).map_err(|it| format!("{any:?} {it}"))
}

fn any_range(random: &mut Random, length: usize) -> Range {
    let place = random.below(length as u64 + 1) as usize;
    Range { place, length: random.below((length - place) as u64 + 1) as usize }
}

/// What the Rust crate makes of the library.
#[cfg(not(alone))]
fn compare_crate(random: &mut Random, committees: &Committees, stream: &[u8], counts: &Counts) -> Result<(), String> {
    if random.one_in(BY_CRATE) {
        counts.by_crate.fetch_add(1, Ordering::Relaxed);
        shards::compare(random, committees, stream)?;
    }
    batches::compare(random, committees, stream)
}

/// Without the library there is no crate.
#[cfg(alone)]
fn compare_crate(_: &mut Random, _: &Committees, _: &[u8], _: &Counts) -> Result<(), String> {
    Ok(())
}

/// Compares until there is a difference, which it returns, or it is over.
fn compare(seed: u64, is_over: impl Fn() -> bool, counts: &Counts) -> Result<(), String> {
    let mut random = Random(seed);
    while !is_over() {
        let committees = streams::committees(&mut random);
        for _ in 0..STREAMS {
            let stream = streams::stream(&mut random, &committees);
            compare_report(&committees, &stream, counts)
                .and_then(|()| compare_batches(&mut random, &committees, &stream))
                .and_then(|()| compare_suspects(&mut random, &committees, &stream))
                .and_then(|()| compare_parts(&mut random, &committees, &stream))
                .and_then(|()| compare_crate(&mut random, &committees, &stream, counts))
                .map_err(|difference| format!("{difference}\n{committees:?}\n{}", hexadecimal(&stream)))?;
        }
    }
    Ok(())
}

fn main() {
    let words: Vec<u64> = std::env::args().skip(1).map(|word| word.parse().unwrap()).collect();
    let [seconds, threads, seed] = words[..] else { panic!("fuzz SECONDS THREADS SEED") };
    let (counts, differs, end) = (Counts::default(), AtomicBool::new(false), Instant::now() + Duration::from_secs(seconds));
    std::thread::scope(|scope| {
        for thread in 0..threads {
            let (counts, differs) = (&counts, &differs);
            scope.spawn(move || {
                let is_over = || differs.load(Ordering::Relaxed) || Instant::now() >= end;
                if let Err(difference) = compare(seed.wrapping_mul(0x100000001b3).wrapping_add(thread), is_over, counts) {
                    differs.store(true, Ordering::Relaxed);
                    println!("they differ: {difference}");
                }
            });
        }
    });
    let [streams, lines, splits, faults, by_crate] =
        [&counts.streams, &counts.lines, &counts.splits, &counts.faults, &counts.by_crate].map(|it| it.load(Ordering::Relaxed));
    println!("{streams} streams, of which {lines} have lines of evidence, {splits} lines of splits and {faults} a fault");
    println!("each in batches by a monitor of the Rust crate too, and {by_crate} of them in parts and in threads");
    std::process::exit(i32::from(differs.load(Ordering::Relaxed)));
}
