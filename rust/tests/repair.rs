//! Images as a cut of power or a worn cell can leave them: what a call repairs, and what it leaves.

use werandumb::{Error, MapStorage};

/// Programs a word of zeros: marks a page's start or end word.
fn mark(image: &mut [u8], place: usize) {
    image[place..place + 4].fill(0);
}

/// The bytes of an item with an empty value.
fn empty_item(key: u32) -> [u8; 12] {
    let mut item = [0; 12];
    item[..4].copy_from_slice(&[4, 0, 0xFB, 0xFF]);
    item[4..8].copy_from_slice(&(key.count_zeros() + 1).to_le_bytes());
    item[8..].copy_from_slice(&key.to_le_bytes());
    item
}

type Call = fn(&mut MapStorage<[u8; 40]>) -> Result<(), Error>;

/// A page with only its end word marked is erased, by each call that repairs.
#[test]
fn a_corrupted_page_is_erased() {
    let mut image = [0xFF; 40];
    mark(&mut image, 36);
    let calls: [Call; 4] = [
        |map| map.fetch_item(1).map(|value| assert_eq!(value, None)),
        |map| map.remove_item(1),
        |map| map.remove_all_items(),
        |map| map.fetch_all_items().map(|items| assert_eq!(items.count(), 0)),
    ];
    for call in calls {
        let mut map = MapStorage::try_new(image, 20, 2).unwrap();
        assert_eq!(map.fetch_plain(1), Err(Error::Corrupted));
        assert_eq!((map.image(), map.erased()), (&image[..], 0));
        assert_eq!(call(&mut map), Ok(()));
        assert_eq!((map.image(), map.erased()), (&[0xFF; 40][..], 1));
        assert_eq!(map.fetch_plain(1), Ok(None));
    }
    let mut map = MapStorage::try_new(image, 20, 2).unwrap();
    assert_eq!(map.store_item(1, &[]), Ok(()));
    assert_eq!(map.erased(), 1);
    assert_eq!(map.fetch_plain(1), Ok(Some(&[][..])));
}

/// What other pages hold is kept; a fetch that the cache serves repairs nothing.
#[test]
fn the_other_pages_stay() {
    let mut map = MapStorage::try_new(vec![0xFF; 64], 32, 2).unwrap();
    map.store_item(1, &[0xAA]).unwrap();
    let (mut image, cache) = map.destroy();
    mark(&mut image, 60);

    let mut cached = MapStorage::try_with_cache(image.clone(), 32, cache).unwrap();
    assert_eq!(cached.fetch_item(1), Ok(Some(&[0xAA][..])));
    assert_eq!((cached.image(), cached.erased()), (&image[..], 0));

    let mut map = MapStorage::try_new(image, 32, 2).unwrap();
    assert_eq!(map.fetch_item(1), Ok(Some(&[0xAA][..])));
    assert_eq!((&map.image()[32..], map.erased()), (&[0xFF; 32][..], 1));
}

/// Power went in a rollover: page 0 is marked, and page 1 isn't migrated yet. A store does that first.
#[test]
fn a_broken_rollover_is_done_again() {
    let mut image = [0xFF; 64];
    mark(&mut image, 0);
    mark(&mut image, 32);
    image[36..48].copy_from_slice(&empty_item(1));
    mark(&mut image, 60);
    let mut map = MapStorage::try_new(image, 32, 2).unwrap();
    assert_eq!(map.store_item(2, &[]), Ok(()));
    assert_eq!(map.erased(), 2);
    let mut left = [0xFF; 64];
    mark(&mut left, 0);
    left[4..16].copy_from_slice(&empty_item(1));
    left[16..28].copy_from_slice(&empty_item(2));
    assert_eq!(map.image(), left);
    assert_eq!(map.fetch_item(1), Ok(Some(&[][..])));
}

/// The first run, the repair and the second run all count.
#[test]
fn all_erased_pages_count() {
    let mut image = [0xFF; 40];
    mark(&mut image, 20);
    image[24..36].copy_from_slice(&empty_item(1));
    mark(&mut image, 36);
    let mut map = MapStorage::try_new(image, 20, 0).unwrap();
    assert_eq!(map.store_item(2, &[]), Err(Error::FullStorage));
    assert_eq!(map.erased(), 4);
    assert_eq!(map.fetch_item(1), Ok(Some(&[][..])));
}

/// Two pages are being filled, and the item's page is not reached: no repair finds its way, the cache is empty then.
#[test]
fn beyond_repair() {
    let mut image = [0xFF; 60];
    mark(&mut image, 0);
    mark(&mut image, 20);
    image[24..36].copy_from_slice(&empty_item(2));
    let mut map = MapStorage::try_new(image, 20, 2).unwrap();
    let empty = map.cache().clone();
    for erased in [1, 2] {
        assert_eq!(map.store_item(1, &[]), Err(Error::Corrupted));
        assert_eq!((map.image(), map.erased()), (&image[..], erased));
        assert_eq!(map.cache(), &empty);
    }
    assert_eq!(map.erase_all(), Ok(()));
    assert_eq!(map.store_item(1, &[]), Ok(()));
}

/// A worn bit in an item's data makes the item unreadable; the value before it is found.
#[test]
fn a_damaged_item_is_passed_over() {
    let mut map = MapStorage::try_new(vec![0xFF; 128], 64, 4).unwrap();
    map.store_item(1, &[0x11]).unwrap();
    map.store_item(1, &[0x22]).unwrap();
    let newest = map.fetch_plain(1).unwrap().unwrap().as_ptr() as usize - map.image().as_ptr() as usize;
    let (mut image, cache) = map.destroy();
    image[newest] &= !0x20;
    for mut map in [
        MapStorage::try_with_cache(image.clone(), 64, cache).unwrap(), // its entry is no hit, and is dropped
        MapStorage::try_new(image, 64, 4).unwrap(),
    ] {
        assert_eq!(map.fetch_item(1), Ok(Some(&[0x11][..])));
        assert_eq!(map.fetch_plain(1), Ok(Some(&[0x11][..])));
        assert_eq!(map.fetch_all_items().unwrap().collect::<Vec<_>>(), [(1, &[0x11][..])]);
        assert_eq!(map.erased(), 0);
    }
}
