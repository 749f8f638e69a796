use crate::{ffi, Error, Refusal};

/// The bytes of a signature, without the verdict.
#[derive(Clone, Copy, Debug, PartialEq, Eq)]
pub enum Size {
    /// 48 bytes, such as those of BLS12-381 in G1.
    Bytes48,
    /// 64 bytes, such as those of Ed25519.
    Bytes64,
    /// 96 bytes, such as those of BLS12-381 in G2.
    Bytes96,
}

impl Size {
    /// The number of bytes: 48, 64 or 96.
    pub fn bytes(self) -> usize {
        match self {
            Size::Bytes48 => 48,
            Size::Bytes64 => 64,
            Size::Bytes96 => 96,
        }
    }
}

/// Who signs in which epoch: one committee for every epoch, or one for each of some epochs. Each constructor returns
/// [`Error::Committees`] with the cause if there are no such committees.
#[derive(Clone, Debug, PartialEq, Eq)]
pub struct Committees {
    pub(crate) members: Members,
}

#[derive(Clone, Debug, PartialEq, Eq)]
pub(crate) enum Members {
    /// The caller verifies signatures of this size. Without epochs there is one size.
    Vouched { size: Size, epochs: Vec<u64>, sizes: Vec<u32> },
    /// The plain scheme: the base of the namespaces, and the keys of the committees one after another, as many of each as its
    /// size says.
    Plain { name: Vec<u8>, epochs: Vec<u64>, sizes: Vec<u32>, keys: Vec<u8> },
}

impl Committees {
    fn of(members: Members) -> Result<Self, Error> {
        ffi::refusal(&members)?;
        Ok(Committees { members })
    }

    /// One committee of this many participants for every epoch, whose signatures have this size and the caller's verdict. It
    /// has at least one participant.
    pub fn every(size: Size, participants: u32) -> Result<Self, Error> {
        Committees::of(Members::Vouched { size, epochs: Vec::new(), sizes: vec![participants] })
    }

    /// For each listed epoch a committee of this many participants, and none for any other epoch. There is an epoch, the epochs
    /// rise strictly, and each committee has a participant.
    ///
    /// ```
    /// use simplex_audit::{Committees, Error, Refusal, Size};
    ///
    /// let falling = Committees::listed(Size::Bytes64, &[(3, 4), (2, 4)]);
    /// assert_eq!(falling, Err(Error::Committees(Refusal::Epochs)));
    /// ```
    pub fn listed(size: Size, committees: &[(u64, u32)]) -> Result<Self, Error> {
        let (epochs, sizes) = committees.iter().copied().unzip();
        Committees::of(Members::Vouched { size, epochs, sizes })
    }

    /// One committee of the plain scheme for every epoch. Its signatures are hashes that anyone can compute. The keys come in
    /// any order; a participant's number is the place of its key in ascending order. There is a key, and none stands twice.
    pub fn plain(name: &[u8], keys: &[[u8; 32]]) -> Result<Self, Error> {
        Committees::keyed(name, Vec::new(), &[keys])
    }

    /// For each listed epoch the committee of these keys, as [`plain`](Self::plain) has them, and none for any other epoch.
    /// There is an epoch, the epochs rise strictly, and no key stands twice in a committee. A key may be in several.
    pub fn plain_listed(name: &[u8], committees: &[(u64, &[[u8; 32]])]) -> Result<Self, Error> {
        let (epochs, keys): (Vec<u64>, Vec<&[[u8; 32]]>) = committees.iter().copied().unzip();
        Committees::keyed(name, epochs, &keys)
    }

    fn keyed(name: &[u8], epochs: Vec<u64>, keys: &[&[[u8; 32]]]) -> Result<Self, Error> {
        let size = |keys: &&[[u8; 32]]| u32::try_from(keys.len()).map_err(|_| Error::Committees(Refusal::TooManyKeys));
        let sizes = keys.iter().map(size).collect::<Result<_, _>>()?;
        Committees::of(Members::Plain { name: name.to_vec(), epochs, sizes, keys: keys.concat().concat() })
    }
}
