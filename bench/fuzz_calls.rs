//! What `bench/fuzz` asks the library and the auditor by hand, and what an audit returns.

use super::exports::Summary;

/// Committees, and with them how a stream is read.
#[derive(Clone, Debug)]
pub enum Committees {
    /// The plain scheme: the base of the namespaces, and the keys of each committee. Without epochs there is one committee.
    Plain { base: Vec<u8>, epochs: Vec<u64>, keys: Vec<Vec<[u8; 32]>> },
    /// Signatures of this many bytes, each with a verdict behind it. Without epochs the one committee has the one size.
    Vouched { signature: usize, epochs: Vec<u64>, sizes: Vec<u32> },
}

impl Committees {
    /// The epochs with a committee; none if one committee signs in all.
    pub fn epochs(&self) -> &[u64] {
        match self {
            Committees::Plain { epochs, .. } | Committees::Vouched { epochs, .. } => epochs,
        }
    }

    /// The place of the committee of an epoch.
    pub fn place(&self, epoch: u64) -> Option<usize> {
        if self.epochs().is_empty() { Some(0) } else { self.epochs().binary_search(&epoch).ok() }
    }

    /// The numbers of participants of the committees.
    pub fn sizes(&self) -> Vec<u32> {
        match self {
            Committees::Plain { keys, .. } => keys.iter().map(|keys| keys.len() as u32).collect(),
            Committees::Vouched { sizes, .. } => sizes.clone(),
        }
    }

    /// The keys of the committees of the plain scheme, one after another.
    pub fn keys(&self) -> Vec<u8> {
        match self {
            Committees::Plain { keys, .. } => keys.concat().concat(),
            Committees::Vouched { .. } => Vec::new(),
        }
    }

    /// The number of participants in an epoch.
    pub fn size(&self, epoch: u64) -> Option<u32> {
        Some(self.sizes()[self.place(epoch)?])
    }

    pub fn greatest_size(&self) -> u32 {
        self.sizes().into_iter().max().unwrap()
    }
}

#[derive(Clone, Debug, PartialEq)]
pub struct Report {
    pub text: String,
    pub summary: Summary,
}
