//! Times Rust's `BTreeMap`, keyed by key and arrival, on the work that the forest does: see `run`.

use std::collections::BTreeMap;
use std::time::Instant;

/// A linear congruential generator of 64 bits, of which the upper half is drawn.
struct Draws(u64);

impl Draws {
    fn draw(&mut self) -> u32 {
        self.0 = self
            .0
            .wrapping_mul(6364136223846793005)
            .wrapping_add(1442695040888963407);
        (self.0 >> 32) as u32
    }
}

/// Entries by key and arrival, and where each entry stands.
struct Lists {
    map: BTreeMap<(u32, u64), u32>,
    places: Vec<(u32, u64)>,
    arrivals: u64,
}

impl Lists {
    fn insert(&mut self, entry: u32, key: u32) {
        let place = (key, self.arrivals);
        self.arrivals += 1;
        self.places[entry as usize] = place;
        self.map.insert(place, entry);
    }

    fn delete(&mut self, entry: u32) {
        self.map.remove(&self.places[entry as usize]);
    }

    fn at_or_after(&self, key: u32) -> Option<u32> {
        self.map.range((key, 0)..).next().map(|(_, entry)| *entry)
    }
}

/// Nanoseconds for each of the calls in the work.
fn timed(calls: u32, work: impl FnOnce()) -> f64 {
    let start = Instant::now();
    work();
    start.elapsed().as_nanos() as f64 / f64::from(calls)
}

/// One round of all kinds of call, and the sum of the keys that were found.
fn round(lists: &mut Lists, calls: u32, mask: u32) -> ([f64; 5], u32) {
    let mut draws = Draws(42);
    let mut sum = 0u32;
    let insert = timed(calls, || {
        for entry in 0..calls {
            lists.insert(entry, draws.draw() & mask);
        }
    });
    let walk = timed(calls, || {
        sum = lists.map.keys().fold(0u32, |sum, key| sum.wrapping_add(key.0));
    });
    let look_up = timed(calls, || {
        for _ in 0..calls {
            if let Some(entry) = lists.at_or_after(draws.draw() & mask) {
                sum = sum.wrapping_add(lists.places[entry as usize].0);
            }
        }
    });
    let churn = timed(calls, || {
        let mut point = 0u32;
        for _ in 0..calls {
            let entry = lists.at_or_after(point & mask).or_else(|| lists.at_or_after(0));
            let Some(entry) = entry else { return };
            point = lists.places[entry as usize].0;
            lists.delete(entry);
            lists.insert(entry, point.wrapping_add(draws.draw() & 0xffff) & mask);
        }
    });
    let delete = timed(calls, || {
        for entry in 0..calls {
            lists.delete(entry);
        }
    });
    ([insert, walk, look_up, churn, delete], sum)
}

fn main() {
    let words: Vec<String> = std::env::args().skip(1).collect();
    for case in words.chunks(3) {
        let [name, calls, mask] = case else { return };
        let (Ok(calls), Ok(mask)) = (calls.parse(), mask.parse()) else { return };
        let mut lists = Lists {
            map: BTreeMap::new(),
            places: vec![(0, 0); calls as usize],
            arrivals: 0,
        };
        let mut best = [f64::MAX; 5];
        let mut sum = 0;
        for _ in 0..5 {
            let (times, found) = round(&mut lists, calls, mask);
            sum = found;
            for (best, time) in best.iter_mut().zip(times) {
                *best = best.min(time);
            }
        }
        print!("{name}_{calls}");
        for (call, time) in ["insert", "walk", "lookup_ge", "churn", "delete"].iter().zip(best) {
            print!(" {call} {time:.1}");
        }
        println!(" sum {sum}");
    }
}
