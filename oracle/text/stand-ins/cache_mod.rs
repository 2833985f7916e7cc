//! Stand-in for cache/mod.rs. No page states are cached. The key pointers are none, or the text's own
//! `ArrayKeyPointers<u32, N>`. The dirty flag follows the arguments with which the text calls it.
#![allow(missing_docs, private_bounds, private_interfaces)]

extern crate std;
use crate::PageState;
use key_pointers::{ArrayKeyPointers, SealedKeyPointersCache};
use std::{boxed::Box, string::String};

pub mod key_pointers;

pub trait CacheImpl<KEY>: Inner<KEY> {}

/// What the text calls on a cache.
pub(crate) trait Inner<KEY> {
    fn is_dirty(&self) -> bool;
    fn unmark_dirty(&mut self);
    fn invalidate_cache_state(&mut self);
    fn get_page_state(&self, page_index: usize) -> Option<PageState>;
    fn notice_page_state(&mut self, page_index: usize, state: PageState, should_dirty: bool);
    fn key_location(&self, key: &KEY) -> Option<u32>;
    fn notice_key_location(&mut self, key: &KEY, item_address: u32, should_dirty: bool);
    fn notice_key_erased(&mut self, key: &KEY);
}

trait Pointers: SealedKeyPointersCache<u32> + core::fmt::Debug {}
impl<const N: usize> Pointers for ArrayKeyPointers<u32, N> {}

pub struct Cache {
    pointers: Option<Box<dyn Pointers>>,
    dirty: bool,
}

macro_rules! sizes {
    ($size:expr; $($n:literal)*) => {
        match $size {
            0 => None,
            $($n => Some(Box::new(ArrayKeyPointers::<u32, $n>::new()) as Box<dyn Pointers>),)*
            _ => panic!("no cache of {} entries is built in", $size),
        }
    };
}

impl Cache {
    pub fn new(size: usize) -> Self {
        Self { pointers: sizes!(size; 1 2 3 5 8 31 32), dirty: false }
    }

    /// The text's own Debug form of its entries, the only way to see their order.
    pub fn debug(&self) -> String {
        self.pointers.as_ref().map_or(String::new(), |p| std::format!("{p:?}"))
    }
}

impl CacheImpl<u32> for Cache {}

impl Inner<u32> for Cache {
    fn is_dirty(&self) -> bool {
        self.dirty
    }
    fn unmark_dirty(&mut self) {
        self.dirty = false;
    }
    fn invalidate_cache_state(&mut self) {
        self.dirty = false;
        if let Some(p) = &mut self.pointers {
            p.invalidate_cache_state();
        }
    }
    fn get_page_state(&self, _: usize) -> Option<PageState> {
        None
    }
    fn notice_page_state(&mut self, _: usize, _: PageState, should_dirty: bool) {
        self.dirty |= should_dirty;
    }
    fn key_location(&self, key: &u32) -> Option<u32> {
        self.pointers.as_ref().and_then(|p| p.key_location(key))
    }
    fn notice_key_location(&mut self, key: &u32, item_address: u32, should_dirty: bool) {
        self.dirty |= should_dirty;
        if let Some(p) = &mut self.pointers {
            p.notice_key_location(key, item_address);
        }
    }
    fn notice_key_erased(&mut self, key: &u32) {
        self.dirty = true;
        if let Some(p) = &mut self.pointers {
            p.notice_key_erased(key);
        }
    }
}
