//! The map over an image.

use std::fmt;
use std::iter::FusedIterator;

use crate::border::{self, Cursor, Found, Told};
use crate::{Cache, Error, Powered};

/// A map in an image of flash pages.
///
/// The image is any bytes that can be lent: `&mut [u8]`, `Vec<u8>`, an array. Each byte of blank flash is `0xFF`.
#[derive(Clone)]
pub struct MapStorage<I> {
    pub(crate) image: I,
    pub(crate) page_size: usize,
    pub(crate) cache: Cache,
    erased: u64,
}

impl<I: AsRef<[u8]> + AsMut<[u8]>> MapStorage<I> {
    /// A map over an image in pages of `page_size` bytes, with an empty cache of `cache_size` entries, 0 to 32.
    ///
    /// The sizes alone are tested: the image is neither read nor changed. A page has 20 to 32,768 bytes, a multiple of 4,
    /// and there are 2 to 256 pages. The errors are those of numbers 1 to 5. An image that is passed by value is lost with
    /// an error; `&mut image` keeps it. The same call opens an image that holds items already, as after a restart.
    pub fn try_new(image: I, page_size: usize, cache_size: usize) -> Result<Self, Error> {
        check_sizes(image.as_ref(), page_size)?;
        let cache = Cache::try_new(cache_size)?;
        Ok(MapStorage { image, page_size, cache, erased: 0 })
    }

    /// The same with a cache that [`MapStorage::destroy`] gave back. The image must not have changed since.
    pub fn try_with_cache(image: I, page_size: usize, cache: Cache) -> Result<Self, Error> {
        check_sizes(image.as_ref(), page_size)?;
        Ok(MapStorage { image, page_size, cache, erased: 0 })
    }

    /// The newest value of a key, as a part of the image. A damaged image is repaired once.
    pub fn fetch_item(&mut self, key: u32) -> Result<Option<&[u8]>, Error> {
        let image = self.image.as_mut();
        let told = border::fetch_item(image, self.page_size, &mut self.cache, key);
        self.erased += u64::from(told.erased);
        Ok(told.answer?.map(|found| view(image, &found)))
    }

    /// The newest value of a key, as a part of the image, without cache and repair: a damaged image is
    /// [`Error::Corrupted`].
    pub fn fetch_plain(&self, key: u32) -> Result<Option<&[u8]>, Error> {
        let image = self.image.as_ref();
        let told = border::fetch_plain(image, self.page_size, key);
        Ok(told.answer?.map(|found| view(image, &found)))
    }

    /// Stores a value of a key, in place of the one before. A damaged image is repaired once.
    ///
    /// A value has at most `page_size - 20` bytes ([`Error::ItemTooBig`]). With [`Error::FullStorage`] the key keeps the
    /// value that it had.
    pub fn store_item(&mut self, key: u32, value: &[u8]) -> Result<(), Error> {
        let told = border::store_item(self.image.as_mut(), self.page_size, &mut self.cache, key, value);
        self.done(told)
    }

    /// Removes a key with all its values. A key that isn't held is done too. A damaged image is repaired once.
    pub fn remove_item(&mut self, key: u32) -> Result<(), Error> {
        let told = border::remove_item(self.image.as_mut(), self.page_size, &mut self.cache, key);
        self.done(told)
    }

    /// Removes all keys: their items are marked, no page is erased for it. A damaged image is repaired once.
    pub fn remove_all_items(&mut self) -> Result<(), Error> {
        let told = border::remove_all_items(self.image.as_mut(), self.page_size, &mut self.cache);
        self.done(told)
    }

    /// Erases all pages, whatever they hold.
    pub fn erase_all(&mut self) -> Result<(), Error> {
        let told = border::erase_all(self.image.as_mut(), self.page_size, &mut self.cache);
        self.done(told)
    }

    /// A walk over all items, older values of a key too: of a key's items the last one counts. A damaged image is repaired
    /// once.
    pub fn fetch_all_items(&mut self) -> Result<Items<'_>, Error> {
        let image = self.image.as_mut();
        let mut cursor = [0; 3];
        let told = border::walk_start(image, self.page_size, &mut self.cache, &mut cursor);
        self.erased += u64::from(told.erased);
        told.answer?;
        Ok(Items { image, page_size: self.page_size, cursor })
    }

    /// The same map on a battery with this much power, which a test can make run out in the middle of a call.
    pub fn with_power(&mut self, units: u64) -> Powered<'_, I> {
        Powered::new(self, units)
    }

    /// The image.
    pub fn image(&self) -> &[u8] {
        self.image.as_ref()
    }

    /// The bytes of a page.
    pub fn page_size(&self) -> usize {
        self.page_size
    }

    /// The cache.
    pub fn cache(&self) -> &Cache {
        &self.cache
    }

    /// How many pages were erased so far, by all calls since this map was made. Calls that failed count too.
    pub fn erased(&self) -> u64 {
        self.erased
    }

    /// The image and the cache, given back.
    pub fn destroy(self) -> (I, Cache) {
        (self.image, self.cache)
    }

    /// Counts the pages that a call erased, and hands on whether it is done.
    pub(crate) fn done(&mut self, told: Told) -> Result<(), Error> {
        self.erased += u64::from(told.erased);
        told.answer.map(|_| ())
    }
}

impl<I: AsRef<[u8]>> fmt::Debug for MapStorage<I> {
    fn fmt(&self, f: &mut fmt::Formatter<'_>) -> fmt::Result {
        f.debug_struct("MapStorage")
            .field("image_len", &self.image.as_ref().len())
            .field("page_size", &self.page_size)
            .field("cache_size", &self.cache.size())
            .field("erased", &self.erased)
            .finish()
    }
}

/// A walk over the items of a map: each key with a value. Made by [`MapStorage::fetch_all_items`].
#[derive(Clone)]
pub struct Items<'a> {
    image: &'a [u8],
    page_size: usize,
    cursor: Cursor,
}

impl<'a> Iterator for Items<'a> {
    type Item = (u32, &'a [u8]);

    fn next(&mut self) -> Option<Self::Item> {
        let told = border::walk_step(self.image, self.page_size, &mut self.cursor);
        let found = told.answer.expect("the walk's start has accepted these sizes")?;
        Some((found.key, view(self.image, &found)))
    }
}

impl FusedIterator for Items<'_> {}

impl fmt::Debug for Items<'_> {
    fn fmt(&self, f: &mut fmt::Formatter<'_>) -> fmt::Result {
        let [first, page, place] = self.cursor;
        f.debug_struct("Items").field("first", &first).field("page", &page).field("place", &place).finish()
    }
}

/// Refuses the sizes that every call would refuse, numbers 1 to 4. A walk's step from a cursor off the ring tests the
/// sizes and reads nothing.
fn check_sizes(image: &[u8], page_size: usize) -> Result<(), Error> {
    border::walk_step(image, page_size, &mut [u32::MAX; 3]).answer.map(|_| ())
}

/// The part of the image that was found, the empty start of the image where it doesn't lie in it.
fn view<'a>(image: &'a [u8], found: &Found) -> &'a [u8] {
    let end = found.place.checked_add(found.len);
    end.and_then(|end| image.get(found.place..end)).unwrap_or(&image[..0])
}

#[cfg(test)]
mod tests {
    use super::*;

    /// The largest cache size is the library's: behind [`Cache::try_new`]'s back it refuses the same sizes.
    #[test]
    fn cache_sizes_are_the_librarys() {
        for size in (0..40).chain([usize::MAX]) {
            let cache = Cache { words: [0; 64], size };
            let mut map = MapStorage { image: [0xFF; 40], page_size: 20, cache, erased: 0 };
            assert_eq!(map.fetch_item(1).err(), Cache::try_new(size).err(), "size {size}");
        }
    }

    /// A place and a length off the image are its empty start.
    #[test]
    fn view_stays_in_the_image() {
        let image = [1, 2, 3, 4];
        let view = |place, len| view(&image, &Found { key: 0, place, len });
        assert_eq!(view(1, 3), [2, 3, 4]);
        for (place, len) in [(1, 4), (5, 0), (usize::MAX, 1), (1, usize::MAX)] {
            assert_eq!(view(place, len).as_ptr_range(), image[..0].as_ptr_range(), "{place} {len}");
        }
    }
}
