//! One map behind two libraries, each used as its users would use it.

/// A map over an image of its own, with a cache of its own.
pub trait Side {
    /// Blank flash of `pages` pages, and an empty cache of `slots` entries.
    fn blank(pages: usize, slots: usize) -> Self;
    /// This image, and an empty cache.
    fn load(&mut self, image: &[u8]);
    fn fetch(&mut self, key: u32) -> Option<&[u8]>;
    /// Is it stored? If not, the storage is full.
    fn store(&mut self, key: u32, value: &[u8]) -> bool;
    /// The whole walk, item by item.
    fn walk(&mut self, item: impl FnMut(u32, &[u8]));
    fn image(&mut self) -> &[u8];
    /// Pages erased since the image was loaded.
    fn erased(&mut self) -> u32;
}
