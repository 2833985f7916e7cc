//! The text's map over an image in memory, one call at a time.
//!
//! The text takes the page size from the flash's type, so there is a type for each size in `PAGE_SIZES`. Each call builds
//! the text's `MapStorage` from flash and cache and takes both back by its `destroy`.
use oracle::{Flash, Step, block_on};
use sequential_storage::{
    Error,
    cache::Cache,
    map::{MapConfig, MapConfigError, MapStorage},
};
use std::convert::Infallible;

/// Document 01's number of an error. The others can't come from blank flash without faults.
fn number(e: Error<Infallible>) -> u32 {
    match e {
        Error::ItemTooBig => 6,
        Error::FullStorage => 7,
        Error::Corrupted { .. } => 8,
        other => panic!("an answer that the list has no number for: {other:?}"),
    }
}

/// What a walk listed, key and value each, and whether it came to its end.
pub struct Walked {
    pub items: Vec<(u32, Vec<u8>)>,
    pub ended: bool,
}

/// A map over the text, whatever its page size. An `Err` has the answer's number.
pub trait Map {
    fn store(&mut self, key: u32, value: &[u8]) -> Result<(), u32>;
    fn fetch(&mut self, key: u32) -> Result<Option<Vec<u8>>, u32>;
    fn remove(&mut self, key: u32) -> Result<(), u32>;
    fn remove_all(&mut self) -> Result<(), u32>;
    /// The text leaves the cache, so it is made anew.
    fn erase_all(&mut self) -> Result<(), u32>;
    /// A walk's start, and steps up to its end or to `most` items.
    fn walk(&mut self, most: usize) -> Result<Walked, u32>;
    fn image(&self) -> &[u8];
    /// Pages erased since the last question.
    fn erased(&mut self) -> u32;
    /// The flash's steps since the last question; none before the first one.
    fn steps(&mut self) -> Vec<Step>;
    /// All 32 entries, key and place; 0 and 0 where one is empty or past the size.
    fn entries(&self) -> [(u32, u32); 32];
}

struct Driver<const E: usize> {
    parts: Option<(Flash<E>, Cache)>,
    size: usize,
    buffer: Vec<u8>,
}

impl<const E: usize> Driver<E> {
    fn with<T>(&mut self, call: impl FnOnce(&mut MapStorage<u32, Flash<E>, Cache>, &mut [u8]) -> T) -> T {
        let (flash, cache) = self.parts.take().unwrap();
        let config = MapConfig::try_new(0..flash.image.len() as u32).expect("asked before");
        let mut map = MapStorage::new(flash, config, cache);
        let result = call(&mut map, &mut self.buffer);
        self.parts = Some(map.destroy());
        result
    }
}

impl<const E: usize> Map for Driver<E> {
    fn store(&mut self, key: u32, value: &[u8]) -> Result<(), u32> {
        self.with(|map, buffer| block_on(map.store_item(buffer, &key, &value))).map_err(number)
    }
    fn fetch(&mut self, key: u32) -> Result<Option<Vec<u8>>, u32> {
        self.with(|map, buffer| {
            let value = block_on(map.fetch_item::<&[u8]>(buffer, &key)).map_err(number)?;
            Ok(value.map(|v| v.to_vec()))
        })
    }
    fn remove(&mut self, key: u32) -> Result<(), u32> {
        self.with(|map, buffer| block_on(map.remove_item(buffer, &key))).map_err(number)
    }
    fn remove_all(&mut self) -> Result<(), u32> {
        self.with(|map, buffer| block_on(map.remove_all_items(buffer))).map_err(number)
    }
    fn erase_all(&mut self) -> Result<(), u32> {
        let result = self.with(|map, _| block_on(map.erase_all())).map_err(number);
        self.parts.as_mut().unwrap().1 = Cache::new(self.size);
        result
    }
    fn walk(&mut self, most: usize) -> Result<Walked, u32> {
        self.with(|map, buffer| {
            block_on(async {
                let mut walk = map.fetch_all_items(buffer).await.map_err(number)?;
                let mut items = Vec::new();
                while items.len() < most {
                    match walk.next::<&[u8]>(buffer).await.map_err(number)? {
                        Some((key, value)) => items.push((key, value.to_vec())),
                        None => return Ok(Walked { items, ended: true }),
                    }
                }
                Ok(Walked { items, ended: false })
            })
        })
    }
    fn image(&self) -> &[u8] {
        &self.parts.as_ref().unwrap().0.image
    }
    fn erased(&mut self) -> u32 {
        std::mem::take(&mut self.parts.as_mut().unwrap().0.erased)
    }
    fn steps(&mut self) -> Vec<Step> {
        self.parts.as_mut().unwrap().0.steps.replace(Vec::new()).unwrap_or_default()
    }
    fn entries(&self) -> [(u32, u32); 32] {
        // ArrayKeyPointers { key_pointers: [Some((1, 4)), None] }
        let text = self.parts.as_ref().unwrap().1.debug();
        let mut entries = [(0, 0); 32];
        for (entry, words) in entries.iter_mut().zip(text.split("Some((").skip(1)) {
            let (key, rest) = words.split_once(", ").unwrap();
            let (place, _) = rest.split_once("))").unwrap();
            *entry = (key.parse().unwrap(), place.parse().unwrap());
        }
        // entries are newest first and empty ones last, so no empty one was passed over
        assert!(text.find("None").is_none_or(|at| !text[at..].contains("Some")));
        entries
    }
}

fn make<const E: usize>(len: usize, size: usize) -> Result<Box<dyn Map>, u32> {
    match MapConfig::<Flash<E>>::try_new(0..len as u32) {
        Err(MapConfigError::EndRangeNotAtPageBoundary) => return Err(1),
        Err(MapConfigError::RangeTooSmall) => return Err(2),
        Err(MapConfigError::PagesTooSmall) => return Err(3),
        Err(other) => panic!("an answer that the list has no number for: {other:?}"),
        Ok(_) => {}
    }
    let flash = Flash::<E>::new(vec![0xFF; len]);
    let buffer = vec![0; 80_000];
    Ok(Box::new(Driver { parts: Some((flash, Cache::new(size))), size, buffer }))
}

macro_rules! page_sizes {
    ($($e:literal)*) => {
        /// The page sizes that are built in.
        pub const PAGE_SIZES: &[usize] = &[$($e),*];

        /// A map on blank flash of `len` bytes with a cache of `size` entries, or the number of the refusal.
        pub fn new(e: usize, len: usize, size: usize) -> Result<Box<dyn Map>, u32> {
            match e {
                $($e => make::<$e>(len, size),)*
                _ => panic!("no pages of {e} bytes are built in"),
            }
        }
    };
}

page_sizes! {
    4 6 16 18
    20 24 28 32 36 40 44 48 52 60 64 68 100 128 252 256 260 512 1024 4096 8192 16384 32764 32768
}

/// The text's `item_overhead_size()`: the stand-in's number.
pub fn item_overhead_size() -> u32 {
    MapStorage::<u32, Flash<32>, Cache>::item_overhead_size()
}
