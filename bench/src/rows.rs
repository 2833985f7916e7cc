//! The rows. Each compares the two sides first, times them in turn, and compares them again.
use crate::{ours::Ours, plain, side::Side, text::Text};
use std::{hint::black_box, time::Instant};

const ROUNDS: usize = 25;
/// A timed batch is at least about this long, in ns, where the row can be repeated at will.
const BATCH: f64 = 1e6;
const SLOTS: usize = 32;

/// A geometry and a size of values.
#[derive(Clone, Copy)]
struct Shape {
    page: usize,
    pages: usize,
    value: usize,
}

impl Shape {
    /// Items that a page holds.
    fn room(self) -> usize {
        (self.page - 8) / (8 + (4 + self.value).next_multiple_of(4))
    }

    /// Items that fill all pages but one.
    fn full(self) -> usize {
        (self.pages - 1) * self.room()
    }

    fn bytes(self, key: u32, age: u32) -> Vec<u8> {
        let mix = |i| (key.wrapping_mul(0x9E37_79B1) ^ age.wrapping_mul(77) ^ i * 29) >> 3;
        (0..self.value as u32).map(|i| mix(i) as u8).collect()
    }
}

fn median(mut times: Vec<f64>) -> f64 {
    times.sort_by(f64::total_cmp);
    times[times.len() / 2]
}

/// ns of one run.
fn time(f: impl FnOnce()) -> f64 {
    let start = Instant::now();
    f();
    start.elapsed().as_nanos() as f64
}

/// ns of a single call of `f`, in a batch that is long enough.
fn repeated(f: &mut impl FnMut()) -> f64 {
    let times = (BATCH / time(&mut *f).max(1.0)).clamp(1.0, 1e5) as usize;
    time(|| (0..times).for_each(|_| f())) / times as f64
}

/// Medians of rounds in which the measures take turns.
fn medians<const N: usize>(measures: [&mut dyn FnMut() -> f64; N]) -> [f64; N] {
    let mut times = [const { Vec::new() }; N];
    for round in 0..ROUNDS {
        for k in 0..N {
            let k = (k + round) % N;
            times[k].push(measures[k]());
        }
    }
    times.map(median)
}

fn line(call: &str, s: Shape, ours: f64, text: f64, plain: f64) {
    println!(
        "| {call} | {} | {} | {} | {ours:.0} | {text:.0} | {:.2} | {plain:.0} | {:.2} |",
        s.page,
        s.pages,
        s.value,
        text / ours,
        ours / plain
    );
}

fn same(a: &mut impl Side, b: &mut impl Side) {
    assert!(a.image() == b.image(), "the images differ");
    assert_eq!(a.erased(), b.erased(), "the erase counts differ");
}

/// Both sides with all pages but one filled by keys 1, 2, ...
fn filled<const E: usize>(s: Shape, slots: usize) -> (Ours<E>, Text<E>) {
    let (mut a, mut b) = (Ours::blank(s.pages, slots), Text::blank(s.pages, slots));
    for key in 1..=s.full() as u32 {
        let value = s.bytes(key, 0);
        assert!(a.store(key, &value) && b.store(key, &value));
    }
    same(&mut a, &mut b);
    (a, b)
}

/// Keys over the whole ring, in a mixed order.
fn sample(s: Shape) -> Vec<u32> {
    (0..61).map(|i| 1 + (i * 2_654_435_761_u64 % s.full() as u64) as u32).collect()
}

fn fetch_each(a: &mut impl Side, keys: &[u32]) {
    for &key in keys {
        black_box(a.fetch(black_box(key)));
    }
}

fn same_fetches(a: &mut impl Side, b: &mut impl Side, keys: &[u32]) {
    keys.iter().for_each(|&key| assert!(a.fetch(key).is_some() && a.fetch(key) == b.fetch(key)));
    same(a, b);
}

fn fetch_uncached<const E: usize>(s: Shape) {
    let (mut a, mut b) = filled::<E>(s, 0);
    let keys = sample(s);
    same_fetches(&mut a, &mut b, &keys);
    let image = a.image().to_vec();
    let used = &image[..(s.pages - 1) * s.page];
    let [ours, text, plain] = medians([
        &mut || repeated(&mut || fetch_each(&mut a, &keys)),
        &mut || repeated(&mut || fetch_each(&mut b, &keys)),
        &mut || repeated(&mut || _ = black_box(plain::zero_bits(black_box(used)))),
    ]);
    same_fetches(&mut a, &mut b, &keys);
    let calls = keys.len() as f64;
    line("fetch, no cache", s, ours / calls, text / calls, plain);
}

fn fetch_hit<const E: usize>(s: Shape) {
    let (mut a, mut b) = filled::<E>(s, SLOTS);
    let last = s.full() as u32;
    let keys: Vec<u32> = (last.saturating_sub(SLOTS as u32 - 1).max(1)..=last).collect();
    same_fetches(&mut a, &mut b, &keys);
    let (image, cache) = (a.image().to_vec(), *a.cache());
    for &key in &keys {
        assert!(plain::lookup(&image, &cache, SLOTS, key) == a.fetch(key));
    }
    let [ours, text, plain] = medians([
        &mut || repeated(&mut || fetch_each(&mut a, &keys)),
        &mut || repeated(&mut || fetch_each(&mut b, &keys)),
        &mut || {
            repeated(&mut || {
                for &key in &keys {
                    let (image, cache) = black_box((&image, &cache));
                    black_box(plain::lookup(image, cache, SLOTS, black_box(key)));
                }
            })
        },
    ]);
    same_fetches(&mut a, &mut b, &keys);
    assert!(*a.cache() == cache, "a hit changed the cache");
    let calls = keys.len() as f64;
    line("fetch that hits", s, ours / calls, text / calls, plain / calls);
}

/// ns of a store: blank maps get as many items as their first page holds.
fn fill_first(maps: &mut [impl Side], s: Shape, values: &[Vec<u8>]) -> f64 {
    let blank = vec![0xFF; s.page * s.pages];
    maps.iter_mut().for_each(|map| map.load(&blank));
    let all = time(|| {
        for map in &mut *maps {
            for (key, value) in values.iter().enumerate() {
                assert!(map.store(black_box(key as u32), black_box(value)));
            }
        }
    });
    all / (maps.len() * values.len()) as f64
}

fn store_alone<const E: usize>(s: Shape) {
    let values: Vec<_> = (0..s.room() as u32).map(|key| s.bytes(key, 0)).collect();
    let maps = 64_usize.div_ceil(s.room());
    let mut a: Vec<Ours<E>> = (0..maps).map(|_| Side::blank(s.pages, SLOTS)).collect();
    let mut b: Vec<Text<E>> = (0..maps).map(|_| Side::blank(s.pages, SLOTS)).collect();
    let whole = vec![0x5A; s.room() * s.value];
    let [ours, text, plain] =
        medians([&mut || fill_first(&mut a, s, &values), &mut || fill_first(&mut b, s, &values), &mut || {
            repeated(&mut || _ = black_box(plain::zero_bits(black_box(&whole))))
        }]);
    a.iter_mut().zip(&mut b).for_each(|(a, b)| same(a, b));
    assert_eq!(a[0].erased(), 0);
    line("store, no rollover", s, ours, text, plain);
}

/// The keys and values of a run on a ring of which four fifths are live.
struct Run {
    image: Vec<u8>,
    stores: Vec<(u32, Vec<u8>)>,
    /// For each store: does it migrate, and is it timed?
    timed: Vec<bool>,
}

/// A run from an image that many stores made, with some stores that migrate.
fn run<const E: usize>(s: Shape) -> Run {
    let live = (s.full() * 4 / 5) as u64;
    let mut seed = 12_345_u64;
    let mut age = 0;
    let mut next = || {
        seed = seed.wrapping_mul(6_364_136_223_846_793_005).wrapping_add(1_442_695_040_888_963_407);
        age += 1;
        let key = 1 + ((seed >> 33) % live) as u32;
        (key, s.bytes(key, age))
    };
    let mut a: Ours<E> = Side::blank(s.pages, SLOTS);
    (1..=live as u32).for_each(|key| assert!(a.store(key, &s.bytes(key, 0))));
    for _ in 0..4 * s.full() {
        let (key, value) = next();
        assert!(a.store(key, &value));
    }
    let image = a.image().to_vec();
    a.load(&image);
    let (mut stores, mut timed) = (Vec::new(), Vec::new());
    let enough = (131_072 / image.len()).max(4);
    while timed.iter().filter(|&&t| t).count() < enough {
        let before = a.erased();
        let (key, value) = next();
        assert!(a.store(key, &value));
        timed.push(a.erased() > before && before > 0);
        stores.push((key, value));
    }
    Run { image, stores, timed }
}

/// ns of a store of the run that migrates, and of any store.
fn stores(map: &mut impl Side, run: &Run, clock: f64) -> (f64, f64) {
    map.load(&run.image);
    let (mut some, mut all) = (0.0, 0.0);
    for ((key, value), timed) in run.stores.iter().zip(&run.timed) {
        let t = time(|| assert!(map.store(black_box(*key), black_box(value)))) - clock;
        all += t;
        some += if *timed { t } else { 0.0 };
    }
    let count = run.timed.iter().filter(|&&t| t).count();
    (some / count as f64, all / run.stores.len() as f64)
}

fn store_migrating<const E: usize>(s: Shape) {
    let run = run::<E>(s);
    let (mut a, mut b) = (Ours::<E>::blank(s.pages, SLOTS), Text::<E>::blank(s.pages, SLOTS));
    let clock = median((0..1001).map(|_| time(|| {})).collect());
    let mut all = [Vec::new(), Vec::new()];
    let mut some = [Vec::new(), Vec::new()];
    for _ in 0..ROUNDS.div_ceil(2) {
        for (k, (one, any)) in [stores(&mut a, &run, clock), stores(&mut b, &run, clock)].into_iter().enumerate() {
            some[k].push(one);
            all[k].push(any);
        }
        same(&mut a, &mut b);
        assert!(a.erased() > 0);
    }
    let used = &run.image[..(s.pages - 1) * s.page];
    let [plain] = medians([&mut || repeated(&mut || _ = black_box(plain::zero_bits(black_box(used))))]);
    let [ours, text] = some.map(median);
    line("store that migrates", s, ours, text, plain);
    let [ours, text] = all.map(median);
    line("store, ring nearly full", s, ours, text, plain);
}

fn walk_whole<const E: usize>(s: Shape) {
    let (mut a, mut b) = filled::<E>(s, SLOTS);
    let list = |map: &mut dyn FnMut(&mut dyn FnMut(u32, &[u8]))| {
        let mut items = Vec::new();
        map(&mut |key, value| items.push((key, value.to_vec())));
        items
    };
    let mine = list(&mut |f| a.walk(f));
    assert!(mine.len() == s.full() && mine == list(&mut |f| b.walk(f)), "the walks differ");
    let image = a.image().to_vec();
    let used = &image[..(s.pages - 1) * s.page];
    let [ours, text, plain] = medians([
        &mut || repeated(&mut || a.walk(|key, value| _ = black_box((key, value)))),
        &mut || repeated(&mut || b.walk(|key, value| _ = black_box((key, value)))),
        &mut || repeated(&mut || _ = black_box(plain::zero_bits(black_box(used)))),
    ]);
    same(&mut a, &mut b);
    line("whole walk", s, ours, text, plain);
}

pub fn all<const E: usize>(pages: usize, value: usize) {
    let s = Shape { page: E, pages, value };
    let rows: [(&str, fn(Shape)); 5] = [
        ("fetch, no cache", fetch_uncached::<E>),
        ("fetch that hits", fetch_hit::<E>),
        ("store, no rollover", store_alone::<E>),
        ("store that migrates", store_migrating::<E>),
        ("whole walk", walk_whole::<E>),
    ];
    let wanted: Vec<String> = std::env::args().skip(1).collect();
    for (name, row) in rows {
        if wanted.is_empty() || wanted.iter().any(|word| name.contains(word.as_str())) {
            row(s);
        }
    }
}
