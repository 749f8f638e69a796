//! The Rust crate over the static library: what a monitor tells of a stream that comes in batches, cut anywhere, with restarts
//! from what it holds, is the evidence of the whole stream, also if the signatures are verified as they come.

use super::streams::Random;
use super::{calls, equal, shards};
use simplex_audit::{audit, audit_deferred, Committees, Error, Evidence, Kind, Monitor, Report};
use std::collections::BTreeSet;

/// Who is accused: in which round, and of what.
type Accused = BTreeSet<(u64, u64, u32, Kind)>;

fn accused(evidence: &[Evidence]) -> Accused {
    evidence.iter().map(|one| (one.epoch, one.view, one.signer, one.kind)).collect()
}

/// How a node fares.
struct Node {
    monitor: Monitor,
    told: Vec<Evidence>,
    /// Whether it was started again: then it tells again what is held.
    is_new: bool,
    /// Whether signatures are verified before they are fed.
    verifies: bool,
    /// The bytes of a message that was not whole, to come again after a restart.
    again: Vec<u8>,
    /// The rounds below this one were given up.
    floor: (u64, u64),
}

impl Node {
    /// Feeds a batch. Whether more can be fed.
    fn feed(&mut self, batch: &[u8]) -> Result<bool, Error> {
        let bytes = [&std::mem::take(&mut self.again)[..], batch].concat();
        let evidence = match self.verifies {
            true => self.monitor.feed_unverified(&bytes, &shards::verify),
            false => self.monitor.feed(&bytes),
        };
        match evidence {
            Ok(evidence) => {
                self.told.extend(evidence);
                Ok(true)
            }
            // behind a fault nothing is read
            Err(Error::Arguments) => Ok(false),
            Err(error) => Err(error),
        }
    }

    /// Stops, and starts again from what it holds. Whether that can be fed more.
    fn restart(&mut self, committees: &Committees) -> Result<bool, Error> {
        self.again = self.monitor.unfed().to_vec();
        match Monitor::resume(committees, &self.monitor.held()?) {
            Ok(monitor) => self.monitor = monitor,
            Err(Error::Arguments) => return Ok(false),
            Err(error) => return Err(error),
        }
        self.is_new = true;
        self.monitor.prune(self.floor.0, self.floor.1);
        Ok(true)
    }

    fn prune(&mut self, floor: (u64, u64)) {
        self.monitor.prune(floor.0, floor.1);
        self.floor = self.floor.max(floor);
    }
}

/// Feeds a stream in batches, mostly short ones, with restarts, and gives up rounds if `prunes` says so.
fn fares(
    random: &mut Random,
    committees: &Committees,
    stream: &[u8],
    whole: &Report,
    [verifies, prunes]: [bool; 2],
) -> Result<Node, Error> {
    let (monitor, floor) = (Monitor::new(committees)?, (0, 0));
    let mut node = Node { monitor, told: Vec::new(), is_new: false, verifies, again: Vec::new(), floor };
    let (mut rest, restarts) = (stream, random.one_in(2));
    while !rest.is_empty() {
        let most = if random.one_in(4) { rest.len() } else { rest.len().min(200) };
        let (batch, behind) = rest.split_at(1 + random.below(most as u64) as usize);
        rest = behind;
        if !node.feed(batch)? || restarts && random.one_in(4) && !node.restart(committees)? {
            break;
        }
        if prunes && random.one_in(8) && !whole.evidence.is_empty() {
            let one = &whole.evidence[random.below(whole.evidence.len() as u64) as usize];
            node.prune((one.epoch, one.view));
        }
    }
    let last = node.monitor.news()?;
    node.told.extend(last);
    Ok(node)
}

pub fn compare(random: &mut Random, committees: &calls::Committees, stream: &[u8]) -> Result<(), String> {
    let said = |error: Error| error.to_string();
    let committees = &shards::of(committees).map_err(said)?;
    let how @ [verifies, prunes] = [random.one_in(2), random.one_in(4)];
    let whole = if verifies { audit_deferred(committees, stream, &shards::verify) } else { audit(committees, stream) };
    let whole = whole.map_err(said)?;
    let mut node = fares(random, committees, stream, &whole, how).map_err(said)?;
    let (told, wanted, floor) = (accused(&node.told), accused(&whole.evidence), node.floor);
    let behind = |all: &Accused| all.iter().filter(|one| (one.0, one.1) >= floor).copied().collect::<Accused>();
    equal("told from the floor on", behind(&told), behind(&wanted))?;
    equal("told of nobody else", told.difference(&wanted).count(), 0)?;
    if node.is_new || prunes {
        return Ok(());
    }
    // without a restart each is told once, with the votes of the report
    let mut lines: Vec<_> = node.told.iter().map(|one| one.line.clone()).collect();
    let mut wanted: Vec<_> = whole.evidence.iter().map(|one| one.line.clone()).collect();
    (lines.sort(), wanted.sort());
    equal("told lines", lines, wanted)?;
    let mut report = node.monitor.report().map_err(said)?;
    if verifies {
        // the bytes of a message that is not whole are not fed
        report.fault = whole.fault;
    }
    equal("report", report, whole)
}
