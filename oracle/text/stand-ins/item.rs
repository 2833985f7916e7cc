//! Stand-in for item.rs: document 01's "Items (ours)".

use super::{
    CacheImpl, Error, GenericStorage, MAX_WORD_SIZE, NorFlash, NorFlashExt, round_up_to_alignment,
};
use core::ops::Range;
use embedded_storage_async::nor_flash::MultiwriteNorFlash;

type Res<T, S> = Result<T, Error<<S as embedded_storage_async::nor_flash::ErrorType>::Error>>;

fn storage<E>(value: E) -> Error<E> {
    Error::Storage { value }
}

fn zero_bits(data: &[u8]) -> u32 {
    data.iter().map(|b| b.count_zeros()).sum()
}

#[derive(Clone)]
pub struct ItemHeader {
    pub length: u16,
    check: u32,
}

/// What stands at a place: nothing more, a word to pass over, an item's header.
enum At {
    End,
    Skip,
    Header(ItemHeader),
}

impl ItemHeader {
    const LENGTH: usize = 8;

    async fn at<S: NorFlash>(flash: &mut S, address: u32, end: u32) -> Res<At, S> {
        if address > end || end - address < Self::LENGTH as u32 {
            return Ok(At::End);
        }
        let mut h = [0; Self::LENGTH];
        flash.read(address, &mut h).await.map_err(storage)?;
        if h == [0xFF; Self::LENGTH] {
            return Ok(At::End);
        }
        let length = u16::from_le_bytes([h[0], h[1]]);
        let header = Self { length, check: u32::from_le_bytes([h[4], h[5], h[6], h[7]]) };
        if u16::from_le_bytes([h[2], h[3]]) != !length
            || header.next_item_address::<S>(address) > end
        {
            return Ok(At::Skip);
        }
        Ok(At::Header(header))
    }

    pub async fn read_new<S: NorFlash>(
        flash: &mut S,
        address: u32,
        end: u32,
    ) -> Res<Option<Self>, S> {
        Ok(match Self::at(flash, address, end).await? {
            At::Header(header) => Some(header),
            _ => None,
        })
    }

    pub async fn read_item<'d, S: NorFlash>(
        self,
        flash: &mut S,
        data_buffer: &'d mut [u8],
        address: u32,
        _end: u32,
    ) -> Res<MaybeItem<'d>, S> {
        let len = self.length as usize;
        if data_buffer.len() < len {
            return Err(Error::BufferTooSmall(len));
        }
        flash
            .read(Self::data_address::<S>(address), &mut data_buffer[..len])
            .await
            .map_err(storage)?;
        Ok(if self.check == 0 {
            MaybeItem::Erased(self, data_buffer)
        } else if self.check == zero_bits(&data_buffer[..len]) + 1 && len >= 4 {
            MaybeItem::Present(Item { header: self, data_buffer })
        } else {
            MaybeItem::Corrupted(self, data_buffer)
        })
    }

    /// Removal programs the check word to 0.
    pub async fn erase_data<S: MultiwriteNorFlash, K>(
        self,
        flash: &mut S,
        _flash_range: Range<u32>,
        _cache: &mut impl CacheImpl<K>,
        address: u32,
    ) -> Res<(), S> {
        flash.write(address + 4, &[0; 4]).await.map_err(storage)
    }

    async fn write<S: NorFlash>(&self, flash: &mut S, address: u32, data: &[u8]) -> Res<(), S> {
        let mut h = [0; Self::LENGTH];
        h[..2].copy_from_slice(&self.length.to_le_bytes());
        h[2..4].copy_from_slice(&(!self.length).to_le_bytes());
        h[4..].copy_from_slice(&self.check.to_le_bytes());
        flash.write(address, &h).await.map_err(storage)?;
        let address = Self::data_address::<S>(address);
        let whole = data.len() / S::WORD_SIZE * S::WORD_SIZE;
        flash.write(address, &data[..whole]).await.map_err(storage)?;
        if whole < data.len() {
            let mut last = [0xFF; MAX_WORD_SIZE];
            last[..data.len() - whole].copy_from_slice(&data[whole..]);
            flash.write(address + whole as u32, &last[..S::WORD_SIZE]).await.map_err(storage)?;
        }
        Ok(())
    }

    pub const fn data_address<S: NorFlash>(address: u32) -> u32 {
        address + round_up_to_alignment::<S>(Self::LENGTH as u32)
    }

    pub const fn next_item_address<S: NorFlash>(&self, address: u32) -> u32 {
        Self::data_address::<S>(address) + round_up_to_alignment::<S>(self.length as u32)
    }
}

pub struct Item<'d> {
    pub header: ItemHeader,
    data_buffer: &'d mut [u8],
}

impl<'d> Item<'d> {
    pub fn data(&'d self) -> &'d [u8] {
        &self.data_buffer[..self.header.length as usize]
    }

    pub fn unborrow(self) -> ItemUnborrowed {
        ItemUnborrowed { header: self.header }
    }

    pub async fn write_new<S: NorFlash, K>(
        flash: &mut S,
        _flash_range: Range<u32>,
        _cache: &mut impl CacheImpl<K>,
        address: u32,
        data: &[u8],
    ) -> Res<(), S> {
        let header = ItemHeader { length: data.len() as u16, check: zero_bits(data) + 1 };
        header.write(flash, address, data).await
    }

    pub async fn write<S: NorFlash, K>(
        &self,
        flash: &mut S,
        _flash_range: Range<u32>,
        _cache: &mut impl CacheImpl<K>,
        address: u32,
    ) -> Res<(), S> {
        self.header.write(flash, address, &self.data_buffer[..self.header.length as usize]).await
    }
}

pub struct ItemUnborrowed {
    pub header: ItemHeader,
}

impl ItemUnborrowed {
    pub fn reborrow(self, data_buffer: &mut [u8]) -> Option<Item<'_>> {
        (data_buffer.len() >= self.header.length as usize)
            .then_some(Item { header: self.header, data_buffer })
    }
}

pub enum MaybeItem<'d> {
    Corrupted(#[allow(unused)] ItemHeader, #[allow(unused)] &'d mut [u8]),
    Erased(#[allow(unused)] ItemHeader, #[allow(unused)] &'d mut [u8]),
    Present(Item<'d>),
}

impl<'d> MaybeItem<'d> {
    pub fn unwrap<E>(self) -> Result<Item<'d>, Error<E>> {
        match self {
            MaybeItem::Present(item) => Ok(item),
            _ => Err(Error::Corrupted {}),
        }
    }
}

pub struct ItemHeaderIter {
    at: u32,
    end: u32,
}

impl ItemHeaderIter {
    pub fn new(start: u32, end: u32) -> Self {
        Self { at: start, end }
    }

    pub async fn next<S: NorFlash>(&mut self, flash: &mut S) -> Res<(Option<ItemHeader>, u32), S> {
        self.traverse(flash, |_, _| false).await
    }

    pub async fn traverse<S: NorFlash>(
        &mut self,
        flash: &mut S,
        skip: impl Fn(&ItemHeader, u32) -> bool,
    ) -> Res<(Option<ItemHeader>, u32), S> {
        loop {
            let at = self.at;
            match ItemHeader::at(flash, at, self.end).await? {
                At::End => return Ok((None, at)),
                At::Skip => self.at += S::WORD_SIZE as u32,
                At::Header(header) => {
                    self.at = header.next_item_address::<S>(at);
                    if !skip(&header, at) {
                        return Ok((Some(header), at));
                    }
                }
            }
        }
    }
}

pub struct ItemIter {
    headers: ItemHeaderIter,
}

impl ItemIter {
    pub fn new(start: u32, end: u32) -> Self {
        Self { headers: ItemHeaderIter::new(start, end) }
    }

    /// The next Present item.
    pub async fn next<'d, S: NorFlash>(
        &mut self,
        flash: &mut S,
        data_buffer: &'d mut [u8],
    ) -> Res<Option<(Item<'d>, u32)>, S> {
        loop {
            let (Some(header), address) = self.headers.next(flash).await? else {
                return Ok(None);
            };
            let item =
                header.clone().read_item(flash, data_buffer, address, self.headers.end).await?;
            if matches!(item, MaybeItem::Present(_)) {
                return Ok(Some((Item { header, data_buffer }, address)));
            }
        }
    }
}

impl<S: NorFlash, C: CacheImpl<KEY>, KEY> GenericStorage<S, C, KEY> {
    /// Where the scan ends, if the item fits there and all its bytes are 0xFF.
    pub(crate) async fn find_next_free_item_spot(
        &mut self,
        start: u32,
        end: u32,
        data_length: u32,
    ) -> Res<Option<u32>, S> {
        let (_, at) =
            ItemHeaderIter::new(start, end).traverse(&mut self.flash, |_, _| true).await?;
        let spot_end = ItemHeader::data_address::<S>(at) + round_up_to_alignment::<S>(data_length);
        if spot_end > end {
            return Ok(None);
        }
        let mut word = [0; MAX_WORD_SIZE];
        for address in (at..spot_end).step_by(S::WORD_SIZE) {
            self.flash.read(address, &mut word[..S::WORD_SIZE]).await.map_err(storage)?;
            if word[..S::WORD_SIZE].iter().any(|&b| b != 0xFF) {
                return Ok(None);
            }
        }
        Ok(Some(at))
    }
}
