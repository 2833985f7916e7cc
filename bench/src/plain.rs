//! Two plain functions to measure against.

/// One pass over bytes that counts their zero bits.
pub fn zero_bits(bytes: &[u8]) -> u32 {
    bytes.iter().map(|b| b.count_zeros()).sum()
}

fn word(bytes: &[u8], at: usize) -> Option<u32> {
    Some(u32::from_le_bytes(bytes.get(at..at + 4)?.try_into().ok()?))
}

/// The value of a key by the cache's words alone: its entry is found, and the item there is checked.
pub fn lookup<'a>(image: &'a [u8], cache: &[u32; 64], slots: usize, key: u32) -> Option<&'a [u8]> {
    let (keys, places) = cache.split_at(32);
    let entries = keys.iter().zip(places).take(slots);
    let (_, &place) = entries.into_iter().find(|&(&k, &place)| k == key && place != 0)?;
    let place = place as usize;
    let lengths = word(image, place)?;
    let len = lengths & 0xFFFF;
    if len < 4 || lengths >> 16 != len ^ 0xFFFF || word(image, place + 8)? != key {
        return None;
    }
    let data = image.get(place + 8..place + 8 + len as usize)?;
    (word(image, place + 4)? == zero_bits(data) + 1).then_some(&data[4..])
}
