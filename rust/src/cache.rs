//! The cache that a map holds beside its image.

use crate::Error;

/// Where the newest items of some keys are: 0 (no cache) to 32 entries.
///
/// It is right for an image where it was empty at first and took part in every change since. A cache that isn't right is
/// never unsafe, but a fetch through it can answer an older value.
#[derive(Clone, Debug, PartialEq, Eq)]
pub struct Cache {
    /// 32 keys and then 32 places; place 0 is an empty entry.
    pub(crate) words: [u32; 64],
    /// How many entries are in use.
    pub(crate) size: usize,
}

impl Cache {
    /// The most entries that a cache has.
    pub const MAX_SIZE: usize = 32;

    /// An empty cache with `size` entries; [`Error::CacheSize`] where that is over [`Cache::MAX_SIZE`].
    pub fn try_new(size: usize) -> Result<Cache, Error> {
        if size > Cache::MAX_SIZE {
            return Err(Error::CacheSize);
        }
        Ok(Cache { words: [0; 64], size })
    }

    /// Makes all entries empty.
    pub(crate) fn empty(&mut self) {
        self.words = [0; 64];
    }

    /// How many entries it has.
    pub fn size(&self) -> usize {
        self.size
    }
}
