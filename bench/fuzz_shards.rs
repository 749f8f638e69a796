//! The Rust crate over the static library: what it audits in threads and in parts has the report of the whole stream.

use super::calls::Committees;
use super::equal;
use super::streams::Random;
use simplex_audit::shards::{audit_deferred_parallel, audit_parallel, audit_ranges, class_ranges, index, merge, ranges, Cut};
use simplex_audit::{audit, audit_deferred, Error, Report, Size, Vote};

pub fn of(committees: &Committees) -> Result<simplex_audit::Committees, Error> {
    let (signature, epochs, sizes) = match committees {
        Committees::Plain { base, epochs, keys } if epochs.is_empty() => {
            return simplex_audit::Committees::plain(base, &keys[0]);
        }
        Committees::Plain { base, epochs, keys } => {
            let listed: Vec<_> = epochs.iter().copied().zip(keys.iter().map(|keys| keys.as_slice())).collect();
            return simplex_audit::Committees::plain_listed(base, &listed);
        }
        Committees::Vouched { signature, epochs, sizes } => (*signature, epochs, sizes),
    };
    let size = match signature {
        48 => Size::Bytes48,
        64 => Size::Bytes64,
        _ => Size::Bytes96,
    };
    if epochs.is_empty() {
        return simplex_audit::Committees::every(size, sizes[0]);
    }
    let listed: Vec<_> = epochs.iter().copied().zip(sizes.iter().copied()).collect();
    simplex_audit::Committees::listed(size, &listed)
}

/// Some signatures are valid: which, their first bytes decide.
pub fn verify(_: &Vote, _: u32, signature: &[u8]) -> bool {
    signature[0] % 4 > 0
}

/// The reports of a stream: whole, in threads, of the ranges of its classes, and of its parts.
fn reports(random: &mut Random, committees: &simplex_audit::Committees, stream: &[u8]) -> Result<[Report; 4], Error> {
    let threads = (1 + random.below(4) as usize).try_into().unwrap();
    let cut = Cut { seed: random.next(), classes: (1 + random.below(8) as u32).try_into().unwrap() };
    let (table, found) = (index(committees, stream)?, class_ranges(committees, stream, &cut)?);
    let (mut in_place, mut copied) = (Vec::new(), Vec::new());
    for class in 0..cut.classes.get() {
        let ranges = ranges(&table.rows, &cut, class)?;
        assert_eq!((&found.ranges[class as usize], found.read, found.fault), (&ranges, table.rows.len(), table.fault));
        in_place.push(audit_ranges(committees, stream, &ranges)?);
        let part: Vec<u8> = ranges.iter().flat_map(|range| &stream[range.place..][..range.length]).copied().collect();
        copied.push(audit(committees, &part)?);
    }
    in_place.reverse();
    let [in_place, copied] = [in_place, copied].map(|reports| merge(reports, table.fault));
    Ok([audit(committees, stream)?, audit_parallel(committees, stream, threads)?, in_place, copied])
}

/// The deferred reports of a stream: in one thread, and in several.
fn deferred(random: &mut Random, committees: &simplex_audit::Committees, stream: &[u8]) -> Result<[Report; 2], Error> {
    let threads = (1 + random.below(4) as usize).try_into().unwrap();
    let report = audit_deferred(committees, stream, &verify)?;
    Ok([report, audit_deferred_parallel(committees, stream, &verify, threads)?])
}

pub fn compare(random: &mut Random, committees: &Committees, stream: &[u8]) -> Result<(), String> {
    let committees = of(committees).map_err(|error| error.to_string())?;
    let [whole, in_threads, in_place, copied] = reports(random, &committees, stream).map_err(|error| error.to_string())?;
    equal("audit_parallel", &in_threads, &whole)?;
    equal("merge", &in_place, &whole)?;
    equal("merge of parts", &copied, &whole)?;
    let [one, several] = deferred(random, &committees, stream).map_err(|error| error.to_string())?;
    equal("audit_deferred_parallel", &several, &one)
}
