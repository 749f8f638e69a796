use crate::exports::Summary;
use crate::{ffi, Committees, Error};

/// How two votes of one signer contradict, in the order of the report.
#[derive(Clone, Copy, Debug, PartialEq, Eq, PartialOrd, Ord)]
pub enum Kind {
    /// Two notarizes for different proposals.
    ConflictingNotarize,
    /// Two finalizes for different proposals.
    ConflictingFinalize,
    /// A nullify and a finalize.
    NullifyFinalize,
}

/// A participant who signed two contradictory votes in a round.
#[derive(Clone, Debug, PartialEq, Eq)]
pub struct Evidence {
    /// The epoch of the round.
    pub epoch: u64,
    /// The view of the round.
    pub view: u64,
    /// The participant's number.
    pub signer: u32,
    /// How the votes contradict.
    pub kind: Kind,
    /// The line of the report, with the two votes.
    pub line: String,
}

/// A round with two certified messages that contradict.
#[derive(Clone, Debug, PartialEq, Eq)]
pub struct Split {
    /// The epoch of the round.
    pub epoch: u64,
    /// The view of the round.
    pub view: u64,
    /// How many participants the evidence accuses in the round.
    pub named: u64,
    /// f + 1: the evidence accuses at least this many.
    pub least: u64,
}

/// What an audit found.
#[derive(Clone, Debug, PartialEq, Eq)]
pub struct Report {
    /// In the order of rounds, signers and kinds.
    pub evidence: Vec<Evidence>,
    /// In the order of rounds.
    pub splits: Vec<Split>,
    /// The number of messages.
    pub read: usize,
    /// The offset of the first byte that does not start a valid message, if there is one.
    pub fault: Option<usize>,
    /// The lines of evidence, then those of splits.
    pub text: String,
}

/// Audits a stream. If the caller verifies signatures, it is one that an [`Encoder`](crate::Encoder) writes.
///
/// The stream is audited once. The buffer is reserved for the longest text that a stream of its length can have: about three
/// times that length for signatures of 64 bytes, of which only what is written takes memory. If so much cannot be reserved the
/// buffer is shorter, and a text that does not fit takes a second audit. The same holds of each call here that audits.
///
/// ```
/// use simplex_audit::{audit, Committees};
/// let committees = Committees::plain(b"test", &[[0; 32]])?;
/// assert_eq!(audit(&committees, &[0xff])?.fault, Some(0));
/// # Ok::<(), simplex_audit::Error>(())
/// ```
pub fn audit(committees: &Committees, stream: &[u8]) -> Result<Report, Error> {
    let (text, summary) = ffi::audit(committees, stream)?;
    Ok(report(&text, &summary))
}

/// The report that a call wrote.
pub(crate) fn report(text: &[u8], summary: &Summary) -> Report {
    let text = String::from_utf8_lossy(text).into_owned();
    let mut lines = text.lines();
    let evidence = lines.by_ref().take(summary.evidence).map(|line| evidence(line).expect("a line of evidence")).collect();
    let splits = lines.map(|line| split(line).expect("a line of a split")).collect();
    let fault = (summary.faulted != 0).then_some(summary.fault_place);
    Report { evidence, splits, read: summary.read, fault, text }
}

/// The evidence of a line: an epoch, a view, a signer, a kind, and the votes.
pub(crate) fn evidence(line: &str) -> Option<Evidence> {
    let mut words = line.split(' ');
    Some(Evidence {
        epoch: words.next()?.parse().ok()?,
        view: words.next()?.parse().ok()?,
        signer: words.next()?.parse().ok()?,
        kind: match words.next()? {
            "conflicting-notarize" => Kind::ConflictingNotarize,
            "conflicting-finalize" => Kind::ConflictingFinalize,
            "nullify-finalize" => Kind::NullifyFinalize,
            _ => return None,
        },
        line: line.to_owned(),
    })
}

/// The split of a line: an epoch, a view, the word `split`, and two numbers.
pub(crate) fn split(line: &str) -> Option<Split> {
    let mut words = line.split(' ');
    Some(Split {
        epoch: words.next()?.parse().ok()?,
        view: words.next()?.parse().ok()?,
        named: words.nth(1)?.parse().ok()?,
        least: words.next()?.parse().ok()?,
    })
}
