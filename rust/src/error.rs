//! What a call answers where it isn't done.

use std::fmt;

/// Why a call was not done. The numbers are the library's own; `include/werandumb.h` has the same.
///
/// The first six are refusals: they change neither the image nor the cache. Where several are due, pages of 0 bytes
/// come first, then the lowest number.
#[derive(Clone, Copy, Debug, PartialEq, Eq, Hash)]
#[non_exhaustive]
pub enum Error {
    /// The image is no whole number of pages.
    EndRangeNotAtPageBoundary = 1,
    /// The image has fewer than two pages.
    RangeTooSmall = 2,
    /// A page has fewer than 20 bytes.
    PagesTooSmall = 3,
    /// A page is no multiple of 4 bytes, or has over 32,768 of them, or there are over 256 pages.
    Geometry = 4,
    /// The cache has over 32 entries.
    CacheSize = 5,
    /// The value has over `page_size - 20` bytes.
    ItemTooBig = 6,
    /// There is no room for the value. The values that are stored stay. Pages were erased to make room.
    FullStorage = 7,
    /// The image is damaged beyond one repair; or it is damaged and the call doesn't repair.
    Corrupted = 8,
}

impl Error {
    /// The error's number, 1 to 8.
    pub fn number(&self) -> u32 {
        *self as u32
    }

    /// The error with a number, if it is one of 1 to 8.
    pub fn from_number(number: u32) -> Option<Error> {
        Some(match number {
            1 => Error::EndRangeNotAtPageBoundary,
            2 => Error::RangeTooSmall,
            3 => Error::PagesTooSmall,
            4 => Error::Geometry,
            5 => Error::CacheSize,
            6 => Error::ItemTooBig,
            7 => Error::FullStorage,
            8 => Error::Corrupted,
            _ => return None,
        })
    }
}

impl fmt::Display for Error {
    fn fmt(&self, f: &mut fmt::Formatter<'_>) -> fmt::Result {
        f.write_str(match self {
            Error::EndRangeNotAtPageBoundary => "the image's length is not a multiple of the page size",
            Error::RangeTooSmall => "the image is shorter than two pages",
            Error::PagesTooSmall => "the page size is under 20 bytes, too small for one item",
            Error::Geometry => "the page size is not a multiple of 4 or over 32,768 bytes, or there are over 256 pages",
            Error::CacheSize => "the cache size is over 32 entries",
            Error::ItemTooBig => "the value is longer than the page size less 20 bytes, so it fits on no page",
            Error::FullStorage => {
                "there is no room for the value: remove keys that aren't needed, or use a larger image"
            }
            Error::Corrupted => {
                "the image is damaged and was not repaired; erasing all pages makes it usable again, without its values"
            }
        })
    }
}

impl std::error::Error for Error {}
