//! Every error: an input that reaches it, what it leaves, its number and its sentence.

use werandumb::{Cache, Error, MapStorage};

const ALL: [Error; 8] = [
    Error::EndRangeNotAtPageBoundary,
    Error::RangeTooSmall,
    Error::PagesTooSmall,
    Error::Geometry,
    Error::CacheSize,
    Error::ItemTooBig,
    Error::FullStorage,
    Error::Corrupted,
];

/// The error of a new map, if it is refused.
fn refused(page_size: usize, image_len: usize, cache_size: usize) -> Option<Error> {
    MapStorage::try_new(vec![0xFF; image_len], page_size, cache_size).err()
}

#[test]
fn sizes_on_both_sides_of_each_border() {
    assert_eq!(refused(20, 40, 0), None);
    assert_eq!(refused(20, 39, 0), Some(Error::EndRangeNotAtPageBoundary));
    assert_eq!(refused(20, 20, 0), Some(Error::RangeTooSmall));
    assert_eq!(refused(20, 0, 0), Some(Error::RangeTooSmall));
    assert_eq!(refused(16, 32, 0), Some(Error::PagesTooSmall));
    assert_eq!(refused(22, 44, 0), Some(Error::Geometry));
    assert_eq!(refused(32_768, 65_536, 0), None);
    assert_eq!(refused(32_772, 65_544, 0), Some(Error::Geometry));
    assert_eq!(refused(20, 256 * 20, 0), None);
    assert_eq!(refused(20, 257 * 20, 0), Some(Error::Geometry));
    assert_eq!(refused(20, 40, 32), None);
    assert_eq!(refused(20, 40, 33), Some(Error::CacheSize));
    assert_eq!(refused(usize::MAX, 40, 0), Some(Error::EndRangeNotAtPageBoundary));
    assert_eq!(refused(20, 40, usize::MAX), Some(Error::CacheSize));
}

#[test]
fn pages_of_no_bytes_come_first_and_then_the_lowest_number() {
    assert_eq!(refused(0, 0, 33), Some(Error::PagesTooSmall));
    assert_eq!(refused(0, 5, 33), Some(Error::PagesTooSmall));
    assert_eq!(refused(16, 17, 33), Some(Error::EndRangeNotAtPageBoundary));
    assert_eq!(refused(16, 16, 33), Some(Error::RangeTooSmall));
    assert_eq!(refused(6, 12, 33), Some(Error::PagesTooSmall));
    assert_eq!(refused(22, 44, 33), Some(Error::Geometry));
    let map = MapStorage::try_with_cache([0xFF; 16], 16, Cache::try_new(2).unwrap());
    assert_eq!(map.err(), Some(Error::RangeTooSmall));
}

#[test]
fn item_too_big_leaves_everything() {
    let mut map = MapStorage::try_new([0xFF; 64], 32, 2).unwrap();
    let cache = map.cache().clone();
    assert_eq!(map.store_item(1, &[0; 13]), Err(Error::ItemTooBig));
    assert_eq!(map.store_item(1, &[0; 1 << 17]), Err(Error::ItemTooBig));
    assert_eq!((map.image(), map.cache(), map.erased()), (&[0xFF; 64][..], &cache, 0));
    assert_eq!(map.store_item(1, &[0; 12]), Ok(()));
    assert_ne!((map.image(), map.cache()), (&[0xFF; 64][..], &cache));
}

#[test]
fn full_storage_leaves_the_values() {
    let mut map = MapStorage::try_new([0xFF; 64], 32, 2).unwrap();
    map.store_item(1, &[0xAA]).unwrap();
    let before = map.image().to_vec();
    assert_eq!(map.store_item(2, &[]), Err(Error::FullStorage));
    assert_eq!((map.image(), map.erased()), (&before[..], 2));
    assert_eq!(map.store_item(1, &[0xBB]), Err(Error::FullStorage));
    assert_eq!((map.image(), map.erased()), (&before[..], 4));
    assert_eq!(map.fetch_item(1), Ok(Some(&[0xAA][..])));
    assert_eq!(map.fetch_item(2), Ok(None));
}

#[test]
fn corrupted_is_answered_where_a_repair_cannot_help() {
    let mut image = [0xFF; 40];
    for word in [0, 16, 20, 36] {
        image[word..word + 4].fill(0); // both pages Closed
    }
    let mut map = MapStorage::try_new(image, 20, 2).unwrap();
    assert_eq!(map.fetch_plain(1), Err(Error::Corrupted));
    assert_eq!(map.fetch_item(1), Err(Error::Corrupted));
    assert_eq!(map.store_item(1, &[]), Err(Error::Corrupted));
    assert_eq!(map.fetch_all_items().map(Iterator::count), Err(Error::Corrupted));
    assert_eq!(map.remove_item(1), Ok(())); // a removal needs no Open page
    assert_eq!(map.remove_all_items(), Ok(()));
    assert_eq!((map.image(), map.erased()), (&image[..], 0));
    assert_eq!(map.erase_all(), Ok(()));
    assert_eq!((map.image(), map.erased()), (&[0xFF; 40][..], 2));
    assert_eq!(map.store_item(1, &[]), Ok(()));
}

#[test]
fn numbers_and_sentences() {
    for (error, number) in ALL.into_iter().zip(1..) {
        assert_eq!(error.number(), number);
        assert_eq!(Error::from_number(number), Some(error));
    }
    for number in [0, 9, 255, u32::MAX] {
        assert_eq!(Error::from_number(number), None);
    }
    let sentence = |word: &str| ALL.into_iter().filter(|error| error.to_string().contains(word)).collect::<Vec<_>>();
    assert_eq!(sentence("not a multiple of the page size"), [Error::EndRangeNotAtPageBoundary]);
    assert_eq!(sentence("shorter than two pages"), [Error::RangeTooSmall]);
    assert_eq!(sentence("under 20 bytes"), [Error::PagesTooSmall]);
    assert_eq!(sentence("not a multiple of 4"), [Error::Geometry]);
    assert_eq!(sentence("over 32 entries"), [Error::CacheSize]);
    assert_eq!(sentence("fits on no page"), [Error::ItemTooBig]);
    assert_eq!(sentence("no room"), [Error::FullStorage]);
    assert_eq!(sentence("damaged"), [Error::Corrupted]);
    let boxed: Box<dyn std::error::Error> = Error::FullStorage.into();
    assert_eq!(boxed.to_string(), Error::FullStorage.to_string());
}

/// The answers that the header names, each with its number: for example ITEM_TOO_BIG and 6.
fn answers_of_header() -> Vec<(String, u32)> {
    let path = concat!(env!("CARGO_MANIFEST_DIR"), "/../include/werandumb.h");
    let header = std::fs::read_to_string(path).unwrap();
    let body = header.split("enum werandumb_answer {").nth(1).unwrap().split('}').next().unwrap();
    let named = |line: &str| {
        let (name, rest) = line.trim().strip_prefix("WERANDUMB_")?.split_once(" = ")?;
        let number = rest.chars().take_while(char::is_ascii_digit).collect::<String>();
        Some((name.to_string(), number.parse().unwrap()))
    };
    body.lines().filter_map(named).collect()
}

/// A name in capitals, as C has it: ItemTooBig is ITEM_TOO_BIG.
fn in_capitals(name: &str) -> String {
    let mut capitals = String::new();
    for letter in name.chars() {
        if letter.is_uppercase() && !capitals.is_empty() {
            capitals.push('_');
        }
        capitals.extend(letter.to_uppercase());
    }
    capitals
}

#[test]
fn the_header_has_the_same_answers() {
    let mut expected = vec![("DONE".to_string(), 0)];
    expected.extend(ALL.map(|error| (in_capitals(&format!("{error:?}")), error.number())));
    expected.push(("WRONG_LENGTH".to_string(), 255));
    assert_eq!(answers_of_header(), expected);
}
