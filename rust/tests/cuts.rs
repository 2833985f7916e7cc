//! The battery pulled after every byte of a call: the image is what the first steps of the Rust leave.
//!
//! `data/steps.txt` has calls and the steps of each; its first lines say how. The repository's `oracle/` makes it.

use std::fmt::Debug;

use werandumb::{Cache, Error, MapStorage, Powered};

const LIST: &str = include_str!("data/steps.txt");

type Map = MapStorage<Vec<u8>>;
type Answer = Result<(), Error>;

/// What takes one unit of power.
#[derive(Clone, Copy)]
enum Unit {
    /// A place, and the byte that is programmed there.
    Byte(usize, u8),
    /// The page that is erased.
    Erase(usize),
}

/// Changes the image by some units.
fn take<'a>(units: impl IntoIterator<Item = &'a Unit>, image: &mut [u8], page_size: usize) {
    for unit in units {
        match *unit {
            Unit::Byte(place, byte) => image[place] &= byte,
            Unit::Erase(page) => image[page * page_size..][..page_size].fill(0xFF),
        }
    }
}

/// The units of a step: `12=01000000` or `x3`.
fn units(step: &str) -> Vec<Unit> {
    if let Some(page) = step.strip_prefix('x') {
        return vec![Unit::Erase(page.parse().unwrap())];
    }
    let (place, bytes) = step.split_once('=').unwrap();
    let place: usize = place.parse().unwrap();
    let byte = |i| u8::from_str_radix(&bytes[2 * i..2 * i + 2], 16).unwrap();
    (0..bytes.len() / 2).map(|i| Unit::Byte(place + i, byte(i))).collect()
}

enum Call {
    Store(u32, Vec<u8>),
    Remove(u32),
    RemoveAll,
    EraseAll,
}

impl Call {
    fn plain(&self, map: &mut Map) -> Answer {
        match self {
            Call::Store(key, value) => map.store_item(*key, value),
            Call::Remove(key) => map.remove_item(*key),
            Call::RemoveAll => map.remove_all_items(),
            Call::EraseAll => map.erase_all(),
        }
    }

    fn powered(&self, map: &mut Powered<Vec<u8>>) -> Option<Answer> {
        match self {
            Call::Store(key, value) => map.store_item(*key, value),
            Call::Remove(key) => map.remove_item(*key),
            Call::RemoveAll => map.remove_all_items(),
            Call::EraseAll => map.erase_all(),
        }
    }
}

/// A line of the list.
struct Line {
    call: Call,
    answer: Answer,
    /// The units of each step.
    steps: Vec<Vec<Unit>>,
}

impl Line {
    fn read(text: &str) -> Line {
        let mut words = text.split(' ');
        let letter = words.next().unwrap();
        let mut number = || words.next().unwrap().parse::<u32>().unwrap();
        let call = match letter {
            "s" => {
                let [key, len, first, step] = [(); 4].map(|()| number());
                Call::Store(key, (0..len).map(|i| (first + step * i) as u8).collect())
            }
            "r" => Call::Remove(number()),
            "a" => Call::RemoveAll,
            "e" => Call::EraseAll,
            _ => panic!("no call that writes: {text}"),
        };
        let answer = Error::from_number(number()).map_or(Ok(()), Err);
        Line { call, answer, steps: words.map(units).collect() }
    }
}

/// Whether two things are equal, and if not, which they are.
fn same<T: PartialEq + Debug>(name: &str, found: T, expected: T) -> Result<(), String> {
    if found == expected {
        return Ok(());
    }
    Err(format!("{name}: found {found:?}, expected {expected:?}"))
}

/// A map before a call, the same after it, and how many units the call takes.
struct Held<'a> {
    before: &'a Map,
    after: Map,
    line: &'a Line,
    units: u64,
}

impl Held<'_> {
    /// The call with this power leaves this image. It is the plain call if a unit is left, else the cache is empty.
    fn with(&self, power: u64, image: &[u8]) -> Result<(), String> {
        let mut map = self.before.clone();
        let empty = Cache::try_new(map.cache().size()).unwrap();
        let mut powered = map.with_power(power);
        let answer = self.line.call.powered(&mut powered);
        let left = if power == u64::MAX { power } else { power.saturating_sub(self.units) };
        same("power", powered.left(), left)?;
        same("image", map.image(), image)?;
        let (answered, cache, erased) = match left {
            0 => (None, &empty, self.before.erased()),
            _ => (Some(self.line.answer), self.after.cache(), self.after.erased()),
        };
        same("answer", answer, answered)?;
        same("cache", map.cache(), cache)?;
        same("erased", map.erased(), erased)
    }
}

/// Makes a line's call with each power, from none to more than it takes, and holds it to the line. Hands on the map after
/// the plain call, or says what differs.
fn hold(before: &Map, line: &Line) -> Result<Map, String> {
    let units = line.steps.concat();
    let mut after = before.clone();
    same("plain answer", line.call.plain(&mut after), line.answer)?;
    let held = Held { before, after, line, units: units.len() as u64 };
    let mut image = before.image().to_vec();
    for power in (0..held.units + 2).chain([u64::MAX]) {
        held.with(power, &image).map_err(|what| format!("power {power}: {what}"))?;
        let next = units.iter().skip(power as usize).take(1);
        take(next, &mut image, before.page_size());
    }
    same("plain image", held.after.image(), &image)?;
    Ok(held.after)
}

/// Makes the calls of the list; each that writes is held to its line by `hold`, which hands on the map after it.
fn replay(list: &str, mut hold: impl FnMut(&Map, &str) -> Map) {
    let mut map = None;
    for text in list.lines().filter(|text| !text.starts_with(['#', 'q'])) {
        let number = |at| text.split(' ').nth(at).unwrap().parse::<usize>().unwrap();
        match (text.split(' ').next(), &mut map) {
            (Some("n"), map) => {
                *map = Some(MapStorage::try_new(vec![0xFF; number(2)], number(1), number(3)).unwrap());
            }
            (Some("f"), Some(map)) => assert_eq!(map.fetch_item(number(1) as u32).err(), None),
            (_, map) => *map = Some(hold(map.as_ref().unwrap(), text)),
        }
    }
}

#[test]
fn every_cut_of_the_list_leaves_its_first_steps() {
    let (mut steps, mut units) = (0, 0);
    replay(LIST, |before, text| {
        let line = Line::read(text);
        steps += line.steps.len();
        units += line.steps.concat().len();
        hold(before, &line).unwrap_or_else(|what| panic!("{text}\n{what}"))
    });
    let calls = LIST.lines().filter(|text| !text.starts_with(['#', 'q', 'n'])).count();
    assert_eq!(LIST.lines().last(), Some(format!("q {calls} {steps} {units}").as_str()));
}

/// A blank map of two pages of 32 bytes.
fn blank() -> Map {
    MapStorage::try_new(vec![0xFF; 64], 32, 2).unwrap()
}

/// The steps of `store_item(1, &[0xAA])` on a blank map.
const STORE: &str = "s 1 1 170 0 0 0=00000000 4=0500faff24000000 12=01000000 16=aaffffff";

#[test]
fn a_wrong_line_is_noticed() {
    assert_eq!(hold(&blank(), &Line::read(STORE)).err(), None);
    let noticed = |wrong: &str, what: &str| {
        let said = hold(&blank(), &Line::read(wrong)).unwrap_err();
        assert!(said.starts_with(what), "{said}");
    };
    noticed(&STORE.replace("170 0 0 ", "170 0 7 "), "plain answer");
    noticed(&STORE.replace("aaffffff", "abffffff"), "power 17: image");
    noticed(&STORE.replace("aaffffff", "aaffff"), "power 20: power"); // a byte less
    noticed(&format!("{STORE} x1"), "power 21: power"); // the erase of a blank page more
    noticed(&STORE.replace("12=01000000 16=aaffffff", "16=aaffffff 12=01000000"), "power 13: image");
}

/// Two neighbours among the steps of a call of the list, exchanged, are noticed wherever they change a byte.
#[test]
fn exchanged_steps_are_noticed() {
    let mut noticed = 0;
    replay(LIST, |before, text| {
        let mut line = Line::read(text);
        let mut image = before.image().to_vec();
        for i in 1..line.steps.len() {
            let from = image.clone();
            take(&line.steps[i - 1], &mut image, before.page_size());
            let mut to = image.clone();
            take(&line.steps[i], &mut to, before.page_size());
            line.steps.swap(i - 1, i);
            assert_eq!(hold(before, &line).is_err(), from != to, "{text}: steps {} and {i} exchanged", i - 1);
            line.steps.swap(i - 1, i);
            noticed += usize::from(from != to);
        }
        hold(before, &line).unwrap()
    });
    assert!(noticed > 10_000, "{noticed}");
}

/// The steps of a repair, by its rule: from blank flash the list has none.
#[test]
fn a_repair_is_cut_too() {
    let mut image = vec![0xFF; 64];
    image[..4].fill(0); // page 0 is marked, and page 1 isn't migrated yet
    image[32..36].fill(0);
    image[36..48].copy_from_slice(&[4, 0, 0xFB, 0xFF, 0x20, 0, 0, 0, 1, 0, 0, 0]);
    image[60..].fill(0);
    let map = MapStorage::try_new(image, 32, 2).unwrap();
    let copied = "x0 0=00000000 4=0400fbff20000000 12=01000000 x1";
    let stored = Line::read(&format!("s 2 0 0 0 0 {copied} 16=0400fbff20000000 24=02000000"));
    assert_eq!(hold(&map, &stored).err(), None);

    let mut image = vec![0xFF; 64];
    image[60..].fill(0); // only an end word is marked
    let map = MapStorage::try_new(image, 32, 2).unwrap();
    for removal in ["r 1 0 x1", "a 0 x1"] {
        assert_eq!(hold(&map, &Line::read(removal)).err(), None);
    }
}

#[test]
fn a_refusal_takes_no_power() {
    let mut map = blank();
    map.store_item(1, &[0xAA]).unwrap();
    let before = map.clone();
    let mut powered = map.with_power(1);
    assert_eq!(powered.store_item(1, &[0; 13]), Some(Err(Error::ItemTooBig)));
    assert_eq!(powered.left(), 1);
    assert_eq!((map.image(), map.cache(), map.erased()), (before.image(), before.cache(), 0));
}

#[test]
fn the_most_power_never_runs_out() {
    let mut map = blank();
    let mut powered = map.with_power(u64::MAX);
    assert_eq!(powered.store_item(1, &[0xAA]), Some(Ok(())));
    assert_eq!(powered.store_item(2, &[]), Some(Err(Error::FullStorage)));
    assert_eq!(powered.remove_item(1), Some(Ok(())));
    assert_eq!(powered.remove_all_items(), Some(Ok(())));
    assert_eq!(powered.erase_all(), Some(Ok(())));
    assert_eq!(powered.left(), u64::MAX);
    assert_eq!((map.image(), map.erased()), (&[0xFF; 64][..], 4));
    let mut powered = map.with_power(u64::MAX - 1);
    assert_eq!(powered.erase_all(), Some(Ok(())));
    assert_eq!(powered.left(), u64::MAX - 3);
}

/// A store takes 20 units and a removal 4: of 22 units there are 2 for the removal, and then none.
#[test]
fn power_is_for_all_calls_together() {
    let mut map = blank();
    let mut powered = map.with_power(22);
    assert_eq!(powered.store_item(1, &[0xAA]), Some(Ok(())));
    let map_in_words = "MapStorage { image_len: 64, page_size: 32, cache_size: 2, erased: 0 }";
    assert_eq!(format!("{powered:?}"), format!("Powered {{ map: {map_in_words}, left: 2 }}"));
    assert_eq!((powered.remove_item(1), powered.left()), (None, 0));
    assert_eq!((powered.erase_all(), powered.remove_item(1), powered.left()), (None, None, 0));
    let mut image = [0xFF; 64];
    image[..17].copy_from_slice(&[0, 0, 0, 0, 5, 0, 0xFA, 0xFF, 0, 0, 0, 0, 1, 0, 0, 0, 0xAA]);
    assert_eq!(map.image(), image);
}

/// After a cut the cache is empty, and no erased page is counted. The value before is found, and the map goes on.
#[test]
fn a_cut_empties_the_cache() {
    let mut map = blank();
    map.store_item(1, &[]).unwrap();
    assert_ne!(map.cache(), blank().cache());
    assert_eq!(map.with_power(11).store_item(1, &[]), None); // of 12
    assert_eq!(map.cache(), blank().cache());
    assert_eq!(map.fetch_item(1), Ok(Some(&[][..])));
    assert_ne!(map.cache(), blank().cache());
    assert_eq!(map.with_power(1).erase_all(), None); // of 2
    assert_eq!((map.image(), map.cache(), map.erased()), (&[0xFF; 64][..], blank().cache(), 0));
    assert_eq!(map.store_item(1, &[0xAA]), Ok(()));
}
