//! The map on a battery that runs out.

use std::fmt;

use crate::border::{self, Told};
use crate::{Cache, Error, MapStorage};

/// A map on a battery: its calls change the image only as long as there is power. Made by [`MapStorage::with_power`].
///
/// Each byte that is programmed takes one unit, and each page that is erased takes one, a repair's too, in the order in which
/// the call does it. An erase is done or not begun. Once no unit is left, nothing changes any more: the image is then what a
/// cut of power at that byte leaves. [`u64::MAX`] units never run out.
///
/// A call answers `Some` where units are left after it: it is done, or failed, exactly as the call of [`MapStorage`] is. It
/// answers `None` where none is left: it was cut, or took the last one. Then nothing is known but the image, so the cache
/// is emptied, and the call's erased pages aren't counted.
pub struct Powered<'a, I> {
    map: &'a mut MapStorage<I>,
    left: u64,
}

impl<'a, I: AsRef<[u8]> + AsMut<[u8]>> Powered<'a, I> {
    pub(crate) fn new(map: &'a mut MapStorage<I>, units: u64) -> Self {
        Powered { map, left: units }
    }

    /// [`MapStorage::store_item`] on the power that is left.
    pub fn store_item(&mut self, key: u32, value: &[u8]) -> Option<Result<(), Error>> {
        self.call(|image, page, cache, power| border::store_item_cut(image, page, cache, key, value, power))
    }

    /// [`MapStorage::remove_item`] on the power that is left.
    pub fn remove_item(&mut self, key: u32) -> Option<Result<(), Error>> {
        self.call(|image, page, cache, power| border::remove_item_cut(image, page, cache, key, power))
    }

    /// [`MapStorage::remove_all_items`] on the power that is left.
    pub fn remove_all_items(&mut self) -> Option<Result<(), Error>> {
        self.call(border::remove_all_items_cut)
    }

    /// [`MapStorage::erase_all`] on the power that is left. The pages are erased one by one, upwards.
    pub fn erase_all(&mut self) -> Option<Result<(), Error>> {
        self.call(border::erase_all_cut)
    }

    /// How many units are left. What a call takes shows in the difference.
    pub fn left(&self) -> u64 {
        self.left
    }

    /// Makes a call. Where it tells nothing the cache is emptied, since it may not be right for the image.
    fn call(
        &mut self,
        call: impl FnOnce(&mut [u8], usize, &mut Cache, &mut u64) -> Option<Told>,
    ) -> Option<Result<(), Error>> {
        let map = &mut *self.map;
        let told = call(map.image.as_mut(), map.page_size, &mut map.cache, &mut self.left);
        if told.is_none() {
            map.cache.empty();
        }
        told.map(|told| map.done(told))
    }
}

impl<I: AsRef<[u8]>> fmt::Debug for Powered<'_, I> {
    fn fmt(&self, f: &mut fmt::Formatter<'_>) -> fmt::Result {
        f.debug_struct("Powered").field("map", &self.map).field("left", &self.left).finish()
    }
}
