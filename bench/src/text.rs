//! The Rust text, unchanged: one `MapStorage` is kept for the run, over a flash in memory.
use crate::side::Side;
use oracle::{Flash, block_on};
use sequential_storage::{
    Error,
    cache::Cache,
    map::{MapConfig, MapStorage},
};

pub struct Text<const E: usize> {
    map: MapStorage<u32, Flash<E>, Cache>,
    buffer: Vec<u8>,
    slots: usize,
}

fn map<const E: usize>(image: Vec<u8>, slots: usize) -> MapStorage<u32, Flash<E>, Cache> {
    let config = MapConfig::new(0..image.len() as u32);
    MapStorage::new(Flash::new(image), config, Cache::new(slots))
}

impl<const E: usize> Side for Text<E> {
    fn blank(pages: usize, slots: usize) -> Self {
        Self { map: map(vec![0xFF; E * pages], slots), buffer: vec![0; E], slots }
    }

    fn load(&mut self, image: &[u8]) {
        self.map = map(image.to_vec(), self.slots);
    }

    fn fetch(&mut self, key: u32) -> Option<&[u8]> {
        block_on(self.map.fetch_item::<&[u8]>(&mut self.buffer, &key)).unwrap()
    }

    fn store(&mut self, key: u32, value: &[u8]) -> bool {
        match block_on(self.map.store_item(&mut self.buffer, &key, &value)) {
            Ok(()) => true,
            Err(Error::FullStorage) => false,
            Err(e) => panic!("{e:?}"),
        }
    }

    fn walk(&mut self, mut item: impl FnMut(u32, &[u8])) {
        block_on(async {
            let mut items = self.map.fetch_all_items(&mut self.buffer).await.unwrap();
            while let Some((key, value)) = items.next(&mut self.buffer).await.unwrap() {
                item(key, value);
            }
        });
    }

    fn image(&mut self) -> &[u8] {
        &self.map.flash().image
    }

    fn erased(&mut self) -> u32 {
        self.map.flash().erased
    }
}
