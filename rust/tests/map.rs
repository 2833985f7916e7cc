//! The map over each kind of image, the bytes that it writes, and the parts of the image that it hands out.

use std::ops::Range;

use werandumb::{Cache, MapStorage};

/// Where bytes stand in memory.
fn range(bytes: &[u8]) -> Range<usize> {
    let range = bytes.as_ptr_range();
    range.start as usize..range.end as usize
}

#[test]
fn a_store_writes_these_bytes() {
    let mut map = MapStorage::try_new([0xFF; 64], 32, 2).unwrap();
    map.store_item(1, &[0xAA]).unwrap();
    let mut expected = [0xFF; 64];
    let page = [0, 0, 0, 0, 5, 0, 0xFA, 0xFF, 0x24, 0, 0, 0, 1, 0, 0, 0, 0xAA];
    expected[..17].copy_from_slice(&page);
    assert_eq!(map.image(), expected);
}

#[test]
fn a_fetched_value_is_a_part_of_the_image() {
    let mut map = MapStorage::try_new([0xFF; 64], 32, 2).unwrap();
    map.store_item(1, &[0xAA]).unwrap();
    let fetched = range(map.fetch_item(1).unwrap().unwrap());
    let plain = range(map.fetch_plain(1).unwrap().unwrap());
    let walked = range(map.fetch_all_items().unwrap().next().unwrap().1);
    assert_eq!([fetched, plain, walked], [(); 3].map(|()| range(&map.image()[16..17])));
}

/// The fifth item of 12 bytes doesn't fit on a page of 64: a rollover copies the newest to 68, and the fifth is at 80. The
/// values are empty, and stand at the end of their items.
#[test]
fn a_rollover_erases_a_page() {
    let mut map = MapStorage::try_new([0xFF; 128], 64, 0).unwrap();
    for _ in 0..5 {
        assert_eq!(map.erased(), 0);
        map.store_item(1, &[]).unwrap();
    }
    assert_eq!(map.erased(), 1);
    assert_eq!(map.image()[..64], [0xFF; 64]);
    let walked: Vec<Range<usize>> = map.fetch_all_items().unwrap().map(|(_, value)| range(value)).collect();
    assert_eq!(walked, [68 + 12, 80 + 12].map(|place| range(&map.image()[place..place])));
}

#[test]
fn a_walk_has_older_values_too_and_stays_at_its_end() {
    let mut map = MapStorage::try_new(vec![0xFF; 256], 64, 2).unwrap();
    for (key, value) in [(1, 10), (2, 20), (1, 11), (3, 30)] {
        map.store_item(key, &[value]).unwrap();
    }
    map.remove_item(2).unwrap();
    let mut walk = map.fetch_all_items().unwrap();
    assert_eq!(walk.next(), Some((1, &[10][..])));
    let from_here = walk.clone();
    assert_eq!(walk.next(), Some((1, &[11][..])));
    assert_eq!(walk.next(), Some((3, &[30][..])));
    assert_eq!((walk.next(), walk.next()), (None, None));
    assert_eq!(from_here.collect::<Vec<_>>(), [(1, &[11][..]), (3, &[30][..])]);
}

#[test]
fn removal_and_erasing() {
    let mut map = MapStorage::try_new(vec![0xFF; 256], 64, 2).unwrap();
    map.store_item(1, &[1]).unwrap();
    map.store_item(2, &[]).unwrap();
    map.remove_item(1).unwrap();
    map.remove_item(9).unwrap();
    assert_eq!(map.fetch_item(1), Ok(None));
    assert_eq!(map.fetch_item(2), Ok(Some(&[][..])));
    map.remove_all_items().unwrap();
    assert_eq!(map.fetch_item(2), Ok(None));
    assert_ne!(map.image(), [0xFF; 256]);
    assert_eq!(map.erased(), 0);
    map.erase_all().unwrap();
    assert_eq!(map.image(), [0xFF; 256]);
    assert_eq!(map.erased(), 4);
}

/// An image that is lent, owned or an array is written alike, and comes back.
#[test]
fn every_kind_of_image() {
    let mut lent = [0xFF; 64];
    let mut map = MapStorage::try_new(&mut lent[..], 32, 1).unwrap();
    map.store_item(1, &[0xAA]).unwrap();

    let mut array = MapStorage::try_new([0xFF; 64], 32, 1).unwrap();
    array.store_item(1, &[0xAA]).unwrap();
    assert_eq!(array.destroy().0, lent);

    let mut vector = MapStorage::try_new(vec![0xFF; 64], 32, 1).unwrap();
    vector.store_item(1, &[0xAA]).unwrap();
    let (image, cache) = vector.destroy();
    assert_eq!(image, lent);

    let mut boxed = MapStorage::try_with_cache(image.into_boxed_slice(), 32, cache.clone()).unwrap();
    assert_eq!(boxed.fetch_item(1), Ok(Some(&[0xAA][..])));
    assert_eq!((boxed.page_size(), boxed.cache()), (32, &cache));
    assert_eq!(format!("{boxed:?}"), "MapStorage { image_len: 64, page_size: 32, cache_size: 1, erased: 0 }");
}

/// A cache is part of the rule: an entry at an older item of its key is answered from there.
#[test]
fn a_cache_that_missed_a_change_is_asked_all_the_same() {
    let mut map = MapStorage::try_new(vec![0xFF; 256], 64, 1).unwrap();
    map.store_item(1, &[1]).unwrap();
    let (image, old) = map.destroy();
    assert_eq!(old.size(), 1);
    assert_ne!(old, Cache::try_new(1).unwrap());
    let mut map = MapStorage::try_new(image, 64, 1).unwrap();
    map.store_item(1, &[2]).unwrap();
    let (image, right) = map.destroy();
    for (cache, value) in [(old, 1), (right, 2)] {
        let mut map = MapStorage::try_with_cache(image.clone(), 64, cache).unwrap();
        assert_eq!(map.fetch_item(1), Ok(Some(&[value][..])));
    }
}
