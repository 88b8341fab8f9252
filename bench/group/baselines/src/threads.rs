//! Three readers beside a writer.
use crate::filled::{asked, many_args, Filled};
use crate::Group;
use std::sync::atomic::{AtomicBool, Ordering};
use std::time::{Duration, Instant};

/// How many pauses there were of each length: eight lengths between a power of two and the next.
struct Pauses(Vec<u64>);

fn place(nanoseconds: u64) -> usize {
    if nanoseconds < 8 {
        return nanoseconds as usize;
    }
    let power = 63 - nanoseconds.leading_zeros() as usize;
    power * 8 + (nanoseconds >> (power - 3)) as usize - 16
}

fn length(place: usize) -> u64 {
    if place < 8 {
        return place as u64;
    }
    ((place % 8 + 8) as u64) << (place / 8 - 1)
}

impl Pauses {
    /// The length that this part of a thousand stays below or meets.
    fn at(&self, thousandths: u64) -> u64 {
        let all: u64 = self.0.iter().sum();
        let mut left = all - all * thousandths / 1000;
        for (place, count) in self.0.iter().enumerate().rev() {
            if *count >= left {
                return length(place);
            }
            left -= count;
        }
        0
    }
}

/// Gets until it is told to stop; returns how many there were, and their pauses.
fn read<G: Group>(group: &G, seed: u64, keys: u64, stop: &AtomicBool) -> (u64, Pauses) {
    let asked = asked(seed, keys, 100_000);
    let mut pauses = Pauses(vec![0; 512]);
    let mut out = Vec::new();
    let mut gets = 0;
    let mut last = Instant::now();
    for key in asked.iter().cycle() {
        if stop.load(Ordering::SeqCst) {
            break;
        }
        out.clear();
        group.get(key, &mut out);
        gets += 1;
        let now = Instant::now();
        pauses.0[place((now - last).as_nanos() as u64)] += 1;
        last = now;
    }
    (gets, pauses)
}

/// Mutates for two seconds, with a pull that confirms all after so many mutations each.
fn write<G: Group>(filled: &mut Filled<G>, every: u64) -> u64 {
    let args = many_args(9, 1_000);
    let start = Instant::now();
    let mut made = 0;
    for one in args.iter().cycle() {
        filled.incr(one);
        made += 1;
        if made % every == 0 {
            filled.confirm();
            if start.elapsed() >= Duration::from_secs(2) {
                break;
            }
        }
    }
    made
}

/// Three readers and a writer for two seconds: gets and mutations a second, and the readers' pauses in nanoseconds.
pub fn readers<G: Group>(keys: u64, every: u64) -> Vec<(&'static str, u64, &'static str)> {
    let mut filled = Filled::<G>::new(keys);
    let group = filled.group.clone();
    let stop = AtomicBool::new(false);
    let start = Instant::now();
    let (made, read) = std::thread::scope(|scope| {
        let readers: Vec<_> = (0..3)
            .map(|seed| {
                let (group, stop) = (&group, &stop);
                scope.spawn(move || read(&**group, 31 + seed, keys, stop))
            })
            .collect();
        let made = write(&mut filled, every.max(1));
        stop.store(true, Ordering::SeqCst);
        let read: Vec<_> = readers.into_iter().map(|reader| reader.join().expect("a reader ends")).collect();
        (made, read)
    });
    let seconds = start.elapsed().as_secs_f64();
    let gets: u64 = read.iter().map(|(gets, _)| gets).sum();
    let mut all = Pauses(vec![0; 512]);
    for (_, pauses) in &read {
        for (sum, count) in all.0.iter_mut().zip(&pauses.0) {
            *sum += count;
        }
    }
    vec![
        ("readers_gets", (gets as f64 / seconds) as u64, "a second"),
        ("readers_mutations", (made as f64 / seconds) as u64, "a second"),
        ("readers_pause_999", all.at(999), "ns"),
    ]
}
