//! Long random runs: one map for each cache size, side by side, against a plain `HashMap`.

use std::collections::HashMap;

use werandumb::{Error, MapStorage};

const CACHE_SIZES: [usize; 5] = [0, 1, 2, 5, 32];
const CALLS: usize = 10_000;

/// Page sizes and numbers of pages.
const GEOMETRIES: [(usize, usize); 9] =
    [(20, 2), (20, 5), (32, 3), (64, 2), (64, 4), (100, 7), (256, 3), (1024, 2), (32, 40)];

/// Random numbers (splitmix64).
struct Random(u64);

impl Random {
    fn next(&mut self) -> u64 {
        self.0 = self.0.wrapping_add(0x9E37_79B9_7F4A_7C15);
        let mut z = self.0;
        z = (z ^ (z >> 30)).wrapping_mul(0xBF58_476D_1CE4_E5B9);
        z = (z ^ (z >> 27)).wrapping_mul(0x94D0_49BB_1331_11EB);
        z ^ (z >> 31)
    }

    fn below(&mut self, limit: usize) -> usize {
        (self.next() % limit as u64) as usize
    }
}

/// The maps of all cache sizes over one run, and what they should hold.
struct Run {
    maps: Vec<MapStorage<Vec<u8>>>,
    held: HashMap<u32, Vec<u8>>,
}

impl Run {
    fn new(page_size: usize, pages: usize) -> Run {
        let blank = vec![0xFF; page_size * pages];
        let map = |size| MapStorage::try_new(blank.clone(), page_size, size).unwrap();
        Run { maps: CACHE_SIZES.into_iter().map(map).collect(), held: HashMap::new() }
    }

    /// Whatever the cache size: the same bytes, and the same count of erased pages.
    fn same(&self) {
        let first = &self.maps[0];
        assert!(self.maps.iter().all(|map| map.image() == first.image() && map.erased() == first.erased()));
    }

    /// The same call on every map: one answer for all.
    fn call(&mut self, call: impl FnMut(&mut MapStorage<Vec<u8>>) -> Result<(), Error>) -> Result<(), Error> {
        let answers: Vec<_> = self.maps.iter_mut().map(call).collect();
        assert!(answers.iter().all(|answer| *answer == answers[0]), "{answers:?}");
        self.same();
        answers[0]
    }

    /// A store: the value is held where it is done.
    fn store(&mut self, key: u32, value: &[u8]) -> Result<(), Error> {
        let answer = self.call(|map| map.store_item(key, value));
        assert_eq!(answer == Err(Error::ItemTooBig), value.len() + 20 > self.maps[0].page_size());
        if answer.is_ok() {
            self.held.insert(key, value.to_vec());
        }
        answer
    }

    /// Both fetches of a key show what is held, as a part of the image.
    fn fetch(&mut self, key: u32) {
        let expected = self.held.get(&key).map(Vec::as_slice);
        for map in &mut self.maps {
            let whole = map.image().as_ptr_range();
            let fetched = map.fetch_item(key).unwrap();
            assert_eq!(fetched, expected);
            let part = fetched.unwrap_or_default().as_ptr_range();
            assert!(fetched.is_none() || whole.start <= part.start && part.end <= whole.end);
            assert_eq!(map.fetch_plain(key).unwrap(), expected);
        }
        self.same();
    }

    /// A walk's last entry of each key is what is held, and no other key comes.
    fn walk(&mut self) {
        for map in &mut self.maps {
            let last: HashMap<u32, &[u8]> = map.fetch_all_items().unwrap().collect();
            let held: HashMap<u32, &[u8]> = self.held.iter().map(|(key, value)| (*key, &value[..])).collect();
            assert_eq!(last, held);
        }
        self.same();
    }
}

/// What a run has tried.
#[derive(Debug, Default)]
struct Tried {
    stored: usize,
    full: usize,
    too_big: usize,
    erased: u64,
}

/// A run of random calls. There are about as many keys as the image has room for.
fn run(page_size: usize, pages: usize, seed: u64) -> Tried {
    let mut random = Random(seed);
    let mut run = Run::new(page_size, pages);
    let mut tried = Tried::default();
    let keys: Vec<u32> =
        [0, u32::MAX].into_iter().chain((0..page_size * pages / 25).map(|_| random.next() as u32)).collect();
    for _ in 0..CALLS {
        let key = keys[random.below(keys.len())];
        match random.below(1000) {
            0..=649 => {
                let len = match random.below(40) {
                    0 => page_size - 19, // one byte too long
                    1 => page_size - 20,
                    _ => random.below((page_size - 20).min(40) + 1),
                };
                let value: Vec<u8> = (0..len).map(|_| random.next() as u8).collect();
                match run.store(key, &value) {
                    Ok(()) => tried.stored += 1,
                    Err(Error::FullStorage) => tried.full += 1,
                    Err(Error::ItemTooBig) => tried.too_big += 1,
                    Err(error) => panic!("a store answers {error:?}"),
                }
                run.fetch(key);
            }
            650..=799 => run.fetch(key),
            800..=979 => {
                assert_eq!(run.call(|map| map.remove_item(key)), Ok(()));
                run.held.remove(&key);
                run.fetch(key);
            }
            980..=995 => run.walk(),
            996..=997 => {
                assert_eq!(run.call(MapStorage::remove_all_items), Ok(()));
                run.held.clear();
            }
            998 => {
                assert_eq!(run.call(MapStorage::erase_all), Ok(()));
                run.held.clear();
            }
            _ => keys.iter().for_each(|key| run.fetch(*key)),
        }
    }
    run.walk();
    tried.erased = run.maps[0].erased();
    tried
}

#[test]
fn random_calls_agree_with_a_hash_map() {
    for (seed, (page_size, pages)) in (1..).zip(GEOMETRIES) {
        let tried = run(page_size, pages, seed);
        println!("{pages} pages of {page_size}: {tried:?}");
        assert!(tried.stored > 500 && tried.full > 100 && tried.too_big > 100 && tried.erased > 1000);
    }
}
