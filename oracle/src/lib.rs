//! What runs the text of sequential-storage's map: a flash in memory, and an end for its futures.
use embedded_storage_async::nor_flash::{ErrorType, MultiwriteNorFlash, NorFlash, ReadNorFlash};
use std::{
    convert::Infallible,
    pin::pin,
    task::{Context, Poll, Waker},
};

/// What changes the flash.
pub enum Step {
    /// Bytes programmed from a place on.
    Program(u32, Vec<u8>),
    /// A page erased.
    Erase(u32),
}

/// Words of 4 bytes. Programming is AND, erasing makes FF; erased pages are counted. Nothing fails.
pub struct Flash<const E: usize> {
    pub image: Vec<u8>,
    pub erased: u32,
    /// The steps in their order, where they are wanted.
    pub steps: Option<Vec<Step>>,
}

impl<const E: usize> Flash<E> {
    pub fn new(image: Vec<u8>) -> Self {
        Self { image, erased: 0, steps: None }
    }
}

impl<const E: usize> ErrorType for Flash<E> {
    type Error = Infallible;
}

impl<const E: usize> ReadNorFlash for Flash<E> {
    const READ_SIZE: usize = 4;
    async fn read(&mut self, offset: u32, bytes: &mut [u8]) -> Result<(), Infallible> {
        bytes.copy_from_slice(&self.image[offset as usize..][..bytes.len()]);
        Ok(())
    }
    fn capacity(&self) -> usize {
        self.image.len()
    }
}

impl<const E: usize> NorFlash for Flash<E> {
    const WRITE_SIZE: usize = 4;
    const ERASE_SIZE: usize = E;
    async fn erase(&mut self, from: u32, to: u32) -> Result<(), Infallible> {
        debug_assert!((from as usize).is_multiple_of(E) && (to as usize).is_multiple_of(E));
        self.image[from as usize..to as usize].fill(0xFF);
        self.erased += (to - from) / E as u32;
        if let Some(steps) = &mut self.steps {
            steps.extend((from / E as u32..to / E as u32).map(Step::Erase)); // page by page, upwards
        }
        Ok(())
    }
    async fn write(&mut self, offset: u32, bytes: &[u8]) -> Result<(), Infallible> {
        debug_assert!(offset.is_multiple_of(4) && bytes.len().is_multiple_of(4));
        let place = &mut self.image[offset as usize..][..bytes.len()];
        place.iter_mut().zip(bytes).for_each(|(old, new)| *old &= new);
        if let Some(steps) = &mut self.steps {
            steps.push(Step::Program(offset, bytes.to_vec()));
        }
        Ok(())
    }
}

impl<const E: usize> MultiwriteNorFlash for Flash<E> {}

/// What the future comes to; this flash never lets it wait.
pub fn block_on<F: Future>(future: F) -> F::Output {
    let mut future = pin!(future);
    let mut context = Context::from_waker(Waker::noop());
    loop {
        if let Poll::Ready(value) = future.as_mut().poll(&mut context) {
            return value;
        }
    }
}
