//! The proved library, called as from C: image, cache and out words are kept between calls.
use crate::side::Side;

#[rustfmt::skip] // laid out as in include/werandumb.h
unsafe extern "C" {
    fn map_fetch_item(image: *mut u8, image_len: usize, page: usize, cache: *mut u32, cache_len: usize, size: usize,
                      key: u32, out: *mut u32, out_len: usize) -> u32;
    fn map_store_item(image: *mut u8, image_len: usize, page: usize, cache: *mut u32, cache_len: usize, size: usize,
                      key: u32, value: *const u8, value_len: usize, out: *mut u32, out_len: usize) -> u32;
    fn map_walk_start(image: *mut u8, image_len: usize, page: usize, cache: *mut u32, cache_len: usize, size: usize,
                      cursor: *mut u32, cursor_len: usize, out: *mut u32, out_len: usize) -> u32;
    fn map_walk_step(image: *const u8, image_len: usize, page: usize, cursor: *mut u32, cursor_len: usize,
                     out: *mut u32, out_len: usize) -> u32;
}

/// A call with a cache: what it takes after the cache size, then the out words. Counts the erased pages, gives the number.
macro_rules! call {
    ($self:ident, $function:ident $(, $arg:expr)*) => {{
        let Self { image, cache, slots, out, .. } = $self;
        // SAFETY: each pointer goes with the length of what it points to.
        let no = unsafe {
            $function(image.as_mut_ptr(), image.len(), E, cache.as_mut_ptr(), 64, *slots, $($arg,)* out.as_mut_ptr(), 5)
        };
        $self.erased += $self.out[0];
        no
    }};
}

pub struct Ours<const E: usize> {
    image: Vec<u8>,
    cache: [u32; 64],
    slots: usize,
    out: [u32; 5],
    erased: u32,
}

impl<const E: usize> Ours<E> {
    /// The cache's words, for the plain lookup.
    pub fn cache(&self) -> &[u32; 64] {
        &self.cache
    }

    /// The value that the out words tell.
    fn value(&self) -> &[u8] {
        &self.image[self.out[2] as usize..][..self.out[3] as usize]
    }
}

impl<const E: usize> Side for Ours<E> {
    fn blank(pages: usize, slots: usize) -> Self {
        Self { image: vec![0xFF; E * pages], cache: [0; 64], slots, out: [0; 5], erased: 0 }
    }

    fn load(&mut self, image: &[u8]) {
        self.image.copy_from_slice(image);
        self.cache = [0; 64];
        self.erased = 0;
    }

    fn fetch(&mut self, key: u32) -> Option<&[u8]> {
        let no = call!(self, map_fetch_item, key);
        assert_eq!(no, 0);
        (self.out[1] == 1).then(|| self.value())
    }

    fn store(&mut self, key: u32, value: &[u8]) -> bool {
        let no = call!(self, map_store_item, key, value.as_ptr(), value.len());
        assert!(no == 0 || no == 7);
        no == 0
    }

    fn walk(&mut self, mut item: impl FnMut(u32, &[u8])) {
        let mut cursor = [0; 3];
        let no = call!(self, map_walk_start, cursor.as_mut_ptr(), 3);
        assert_eq!(no, 0);
        loop {
            // SAFETY: as in `call!`.
            let no = unsafe {
                map_walk_step(
                    self.image.as_ptr(),
                    self.image.len(),
                    E,
                    cursor.as_mut_ptr(),
                    3,
                    self.out.as_mut_ptr(),
                    5,
                )
            };
            assert_eq!(no, 0);
            if self.out[1] == 0 {
                return;
            }
            item(self.out[4], self.value());
        }
    }

    fn image(&mut self) -> &[u8] {
        &self.image
    }

    fn erased(&mut self) -> u32 {
        self.erased
    }
}
