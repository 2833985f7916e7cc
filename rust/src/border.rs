//! The library's C functions behind safe ones. All unsafe code of the crate is here.
//!
//! The functions are proved for all numbers and for all slices that Rust could lend. So a call is sound where each pointer
//! with its length is a live slice, lent by `&mut` if it is written, and no two slices of the call overlap. A Rust slice's
//! pointer is aligned and never null, an empty slice's neither. The functions keep no pointer and no state, and do not
//! unwind. C's `size_t` is `usize`.

use crate::{Cache, Error};

/// A cursor's words: first page, page, place.
pub(crate) type Cursor = [u32; 3];

/// What a call tells beside what it changes.
pub(crate) struct Told {
    /// How many pages it erased.
    pub erased: u32,
    pub answer: Result<Option<Found>, Error>,
}

/// Where a value is in the image, and the key of a walk's item.
pub(crate) struct Found {
    pub key: u32,
    pub place: usize,
    pub len: usize,
}

#[rustfmt::skip] // laid out as in include/werandumb.h
extern "C" {
    fn map_fetch_item(image: *mut u8, image_len: usize, page: usize, cache: *mut u32, cache_len: usize, size: usize,
                      key: u32, out: *mut u32, out_len: usize) -> u32;
    fn map_fetch_plain(image: *const u8, image_len: usize, page: usize, key: u32, out: *mut u32, out_len: usize) -> u32;
    fn map_store_item(image: *mut u8, image_len: usize, page: usize, cache: *mut u32, cache_len: usize, size: usize,
                      key: u32, value: *const u8, value_len: usize, out: *mut u32, out_len: usize) -> u32;
    fn map_remove_item(image: *mut u8, image_len: usize, page: usize, cache: *mut u32, cache_len: usize, size: usize,
                       key: u32, out: *mut u32, out_len: usize) -> u32;
    fn map_remove_all_items(image: *mut u8, image_len: usize, page: usize, cache: *mut u32, cache_len: usize, size: usize,
                            out: *mut u32, out_len: usize) -> u32;
    fn map_erase_all(image: *mut u8, image_len: usize, page: usize, cache: *mut u32, cache_len: usize, size: usize,
                     out: *mut u32, out_len: usize) -> u32;
    fn map_store_item_cut(image: *mut u8, image_len: usize, page: usize, cache: *mut u32, cache_len: usize, size: usize,
                          key: u32, value: *const u8, value_len: usize, power: *mut u64, power_len: usize,
                          out: *mut u32, out_len: usize) -> u32;
    fn map_remove_item_cut(image: *mut u8, image_len: usize, page: usize, cache: *mut u32, cache_len: usize, size: usize,
                           key: u32, power: *mut u64, power_len: usize, out: *mut u32, out_len: usize) -> u32;
    fn map_remove_all_items_cut(image: *mut u8, image_len: usize, page: usize, cache: *mut u32, cache_len: usize,
                                size: usize, power: *mut u64, power_len: usize, out: *mut u32, out_len: usize) -> u32;
    fn map_erase_all_cut(image: *mut u8, image_len: usize, page: usize, cache: *mut u32, cache_len: usize, size: usize,
                         power: *mut u64, power_len: usize, out: *mut u32, out_len: usize) -> u32;
    fn map_walk_start(image: *mut u8, image_len: usize, page: usize, cache: *mut u32, cache_len: usize, size: usize,
                      cursor: *mut u32, cursor_len: usize, out: *mut u32, out_len: usize) -> u32;
    fn map_walk_step(image: *const u8, image_len: usize, page: usize, cursor: *mut u32, cursor_len: usize,
                     out: *mut u32, out_len: usize) -> u32;
}

/// What a call returned, and the five words of its out.
type Said = (u32, [u32; 5]);

/// Makes a call with an out of five words.
fn said(call: impl FnOnce(&mut [u32; 5]) -> u32) -> Said {
    let mut out = [0; 5];
    (call(&mut out), out)
}

/// Reads what a call said.
fn told((number, [erased, kind, place, len, key]): Said) -> Told {
    let answer = match (number, Error::from_number(number)) {
        (0, _) => Ok((kind == 1).then_some(Found { key, place: place as usize, len: len as usize })),
        (_, Some(error)) => Err(error),
        // 255 says that a cache, cursor, power or out has a wrong length. Here their types have the right one.
        _ => unreachable!("libcapi.a answered {number}, so it is not the library that this crate is written for"),
    };
    Told { erased, answer }
}

/// The same where power is left. Without it the call may have been cut, and then what it said means nothing.
fn told_if_left(power: u64, said: Said) -> Option<Told> {
    (power > 0).then(|| told(said))
}

/// A call that may change image and cache: what it takes after the cache size goes before the out.
macro_rules! changing {
    ($function:ident, $image:ident, $page:ident, $cache:ident $(, $arg:expr)*) => {{
        let Cache { words, size } = $cache;
        // SAFETY: image, words, out, a cursor and a power are `&mut`, so live and apart from each other and from a value,
        // which is only read; each pointer goes with its own length.
        said(|out| unsafe {
            $function(
                $image.as_mut_ptr(),
                $image.len(),
                $page,
                words.as_mut_ptr(),
                words.len(),
                *size,
                $($arg,)*
                out.as_mut_ptr(),
                out.len(),
            )
        })
    }};
}

pub(crate) fn fetch_item(image: &mut [u8], page: usize, cache: &mut Cache, key: u32) -> Told {
    told(changing!(map_fetch_item, image, page, cache, key))
}

pub(crate) fn fetch_plain(image: &[u8], page: usize, key: u32) -> Told {
    // SAFETY: image is live and only read; out is a `&mut`, so apart from it; each with its own length.
    told(said(|out| unsafe { map_fetch_plain(image.as_ptr(), image.len(), page, key, out.as_mut_ptr(), out.len()) }))
}

pub(crate) fn store_item(image: &mut [u8], page: usize, cache: &mut Cache, key: u32, value: &[u8]) -> Told {
    told(changing!(map_store_item, image, page, cache, key, value.as_ptr(), value.len()))
}

pub(crate) fn remove_item(image: &mut [u8], page: usize, cache: &mut Cache, key: u32) -> Told {
    told(changing!(map_remove_item, image, page, cache, key))
}

pub(crate) fn remove_all_items(image: &mut [u8], page: usize, cache: &mut Cache) -> Told {
    told(changing!(map_remove_all_items, image, page, cache))
}

pub(crate) fn erase_all(image: &mut [u8], page: usize, cache: &mut Cache) -> Told {
    told(changing!(map_erase_all, image, page, cache))
}

pub(crate) fn store_item_cut(
    image: &mut [u8],
    page: usize,
    cache: &mut Cache,
    key: u32,
    value: &[u8],
    power: &mut u64,
) -> Option<Told> {
    let said = changing!(map_store_item_cut, image, page, cache, key, value.as_ptr(), value.len(), power, 1);
    told_if_left(*power, said)
}

pub(crate) fn remove_item_cut(
    image: &mut [u8],
    page: usize,
    cache: &mut Cache,
    key: u32,
    power: &mut u64,
) -> Option<Told> {
    let said = changing!(map_remove_item_cut, image, page, cache, key, power, 1);
    told_if_left(*power, said)
}

pub(crate) fn remove_all_items_cut(image: &mut [u8], page: usize, cache: &mut Cache, power: &mut u64) -> Option<Told> {
    let said = changing!(map_remove_all_items_cut, image, page, cache, power, 1);
    told_if_left(*power, said)
}

pub(crate) fn erase_all_cut(image: &mut [u8], page: usize, cache: &mut Cache, power: &mut u64) -> Option<Told> {
    let said = changing!(map_erase_all_cut, image, page, cache, power, 1);
    told_if_left(*power, said)
}

pub(crate) fn walk_start(image: &mut [u8], page: usize, cache: &mut Cache, cursor: &mut Cursor) -> Told {
    told(changing!(map_walk_start, image, page, cache, cursor.as_mut_ptr(), cursor.len()))
}

pub(crate) fn walk_step(image: &[u8], page: usize, cursor: &mut Cursor) -> Told {
    // SAFETY: image is live and only read; cursor and out are two `&mut`, so apart from it and from each other; each with
    // its own length.
    told(said(|out| unsafe {
        map_walk_step(image.as_ptr(), image.len(), page, cursor.as_mut_ptr(), cursor.len(), out.as_mut_ptr(), out.len())
    }))
}
