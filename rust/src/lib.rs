//! A key-value map on flash. Keys are `u32`, values are bytes.
//!
//! The map is a library written in Rattle, whose every call is proved to do what its rules say, for every image, page size,
//! cache, key and value. This crate links that library and makes it safe to call from Rust: [`MapStorage`] holds the image
//! and a cache, and has the calls as methods. It adds no rule of its own and copies no value: what a fetch or a walk hands
//! out is a part of the image.
//!
//! A controller keeps the total charge of each battery pack, in milliampere-hours:
//!
//! ```
//! use werandumb::{Error, MapStorage};
//!
//! fn main() -> Result<(), Error> {
//!     let mut image = [0xFF; 4 * 64];                                   // blank flash: 4 pages of 64 bytes
//!     let mut map = MapStorage::try_new(&mut image, 64, 8)?;            // and a cache of 8 entries
//!
//!     map.store_item(7, &2600u32.to_le_bytes())?;                       // pack 7
//!     map.store_item(7, &5150u32.to_le_bytes())?;                       // its new total
//!     assert_eq!(map.fetch_item(7)?, Some(&5150u32.to_le_bytes()[..])); // a part of the image, not a copy
//!     assert_eq!(map.fetch_item(8)?, None);
//!
//!     let totals: Vec<(u32, &[u8])> = map.fetch_all_items()?.collect(); // older values too; the last of a key counts
//!     assert_eq!(totals.len(), 2);
//!
//!     assert_eq!(map.with_power(9).store_item(7, &[0; 4]), None);       // the battery is pulled after 9 bytes
//!     assert_eq!(map.fetch_item(7)?, Some(&5150u32.to_le_bytes()[..])); // the total before is still there
//!
//!     map.remove_item(7)?;
//!     assert_eq!(map.fetch_plain(7)?, None);                            // reads only: takes `&self`, repairs nothing
//!     assert_eq!(map.store_item(7, &[0; 45]), Err(Error::ItemTooBig));  // at most the page size less 20 bytes
//!     assert_eq!(map.erased(), 0);                                      // no page had to be erased so far
//!     Ok(())
//! }
//! ```
//!
//! # What is promised
//!
//! On a sound image, and blank flash is one, no call answers [`Error::Corrupted`]; a fetch shows the value that was stored
//! last; and the cache's size changes no answer and no byte. On any other image a call that finds it damaged repairs it
//! once, by rules that the repository's `docs/RULES.md` gives.
//!
//! # Panics
//!
//! No method panics over the library that this crate is written for. One that answers a number unknown here makes a
//! method panic and say so.

#![deny(missing_docs, unsafe_code)]

#[allow(unsafe_code)]
mod border;
mod cache;
mod error;
mod map;
mod power;

pub use cache::Cache;
pub use error::Error;
pub use map::{Items, MapStorage};
pub use power::Powered;
