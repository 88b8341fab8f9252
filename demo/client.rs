//! A client process of the demo in Rust: what `client.py` is, with the same arguments and the same output.

use giqaymu::{Group, Place, Refusal, Scan};
use std::error::Error;
use std::io::{self, BufRead, Read, Write};
use std::net::TcpStream;
use std::sync::atomic::{AtomicBool, Ordering};
use std::thread;
use std::time::{Duration, SystemTime, UNIX_EPOCH};

const RULES: &str = include_str!("rules.json");
const SLOTS: u32 = 4096;
const TODOS: u64 = 30;
/// How long it takes where no slot is free, until a mutation is tried again.
const FULL: Duration = Duration::from_millis(2);
/// How long it takes after a request that was lost, until the next one.
const LOST: Duration = Duration::from_millis(5);
/// How long the syncing client stays offline at the most.
const OFFLINE: Duration = Duration::from_millis(200);

type Outcome<T> = Result<T, Box<dyn Error + Send + Sync>>;

/// Numbers that look random (xorshift, of 64 bits).
struct Dice(u64);

impl Dice {
    fn of(seed: u64) -> Dice {
        Dice(seed.wrapping_mul(0x9E37_79B9_7F4A_7C15) | 1)
    }

    fn below(&mut self, limit: u64) -> u64 {
        self.0 ^= self.0 << 13;
        self.0 ^= self.0 >> 7;
        self.0 ^= self.0 << 17;
        (self.0 >> 11) % limit
    }

    /// A part of this time.
    fn part_of(&mut self, time: Duration) -> Duration {
        time * u32::try_from(self.below(1000)).expect("a number below 1000") / 1000
    }
}

/// What a process is told.
struct Told {
    port: u16,
    name: String,
    seed: u64,
    times: u64,
    pause: Duration,
}

impl Told {
    fn of(mut words: impl Iterator<Item = String>) -> Outcome<Told> {
        let mut next = || words.next().ok_or("client PORT NAME SEED TIMES PAUSE");
        Ok(Told {
            port: next()?.parse()?,
            name: next()?,
            seed: next()?.parse()?,
            times: next()?.parse()?,
            pause: Duration::from_millis(next()?.parse()?),
        })
    }

    /// The ID of the group, 0, or of a client.
    fn uuid(&self, number: u32) -> String {
        format!("00000000-0000-4000-8000-0000000000{}{number}", self.name)
    }
}

/// What was counted, as JSON objects have it.
type Counts = Vec<(&'static str, u64)>;

fn count(counts: &mut Counts, what: &'static str) {
    match counts.iter_mut().find(|(name, _)| *name == what) {
        Some((_, times)) => *times += 1,
        None => counts.push((what, 1)),
    }
}

/// How many bytes the body of a response has, by its head.
fn length_of(head: &str) -> Option<usize> {
    let mut lines = head.lines().map(str::to_ascii_lowercase);
    lines.find_map(|line| line.strip_prefix("content-length:")?.trim().parse().ok())
}

/// What the server answers; an error of `io` where it was not reached or was busy, or its response was lost or cut.
fn post(port: u16, path: &str, body: &[u8]) -> io::Result<Vec<u8>> {
    let mut server = TcpStream::connect(("127.0.0.1", port))?;
    server.set_read_timeout(Some(Duration::from_secs(5)))?;
    write!(server, "POST {path} HTTP/1.0\r\ncontent-length: {}\r\n\r\n", body.len())?;
    server.write_all(body)?;
    let mut response = Vec::new();
    server.read_to_end(&mut response)?;
    let Some(head) = response.windows(4).position(|bytes| bytes == b"\r\n\r\n") else {
        return Err(io::ErrorKind::UnexpectedEof.into());
    };
    let text = response.split_off(head + 4);
    let head = String::from_utf8_lossy(&response);
    if length_of(&head) != Some(text.len()) || head.split(' ').nth(1) == Some("503") {
        return Err(io::ErrorKind::UnexpectedEof.into());
    }
    assert_eq!(head.split(' ').nth(1), Some("200"), "{path}: {}", String::from_utf8_lossy(&text));
    Ok(text)
}

/// Pushes what is pending, and answers the response to a pull.
fn carry(port: u16, place: &mut Place) -> Outcome<()> {
    if place.pending()? != b"[]" {
        post(port, "/push", place.push()?)?;
    }
    let (ticket, request) = place.begin_pull()?;
    match post(port, "/pull", request) {
        Ok(response) => place.end_pull(ticket, &response)?,
        Err(lost) => {
            place.forget(ticket)?;
            return Err(lost.into());
        }
    };
    Ok(())
}

/// Pushes and pulls. Whether the server was reached, and the pull applied or up to date.
fn sync(port: u16, place: &mut Place, counts: &mut Counts) -> Outcome<bool> {
    let Err(error) = carry(port, place) else {
        count(counts, "synced");
        if place.pending()? != b"[]" {
            count(counts, "rebased");
        }
        return Ok(true);
    };
    if error.is::<io::Error>() {
        count(counts, "lost");
        thread::sleep(LOST);
        return Ok(false);
    }
    match error.downcast_ref() {
        // A later sync mends these.
        Some(Refusal::Moved | Refusal::Busy | Refusal::Gone | Refusal::Full) => {
            count(counts, "again");
            Ok(false)
        }
        _ => Err(error),
    }
}

/// A mutator, and its arguments.
fn mutation(told: &Told, dice: &mut Dice, number: u64) -> (&'static str, String) {
    let (todo, name) = (dice.below(TODOS), &told.name);
    match dice.below(7) {
        0 => ("add", format!(r#"{{"id":"{todo}","text":"{name}{number}"}}"#)),
        1 => ("rename", format!(r#"{{"id":"{todo}","text":"{name}{number}"}}"#)),
        2 => ("toggle", format!(r#"{{"id":"{todo}"}}"#)),
        3 => ("remove", format!(r#"{{"id":"{todo}"}}"#)),
        4 => ("count", "[]".to_owned()),
        5 => ("set", format!(r#"["note/{todo}","{name}{number}"]"#)),
        _ => ("append", format!(r#"["log/{name}","{}"]"#, number % 10)),
    }
}

fn now() -> u64 {
    let since = SystemTime::now().duration_since(UNIX_EPOCH).unwrap_or_default();
    u64::try_from(since.as_millis()).unwrap_or(u64::MAX)
}

/// Makes the mutations, whether the server can be reached or not.
fn mutate(told: &Told, place: &mut Place) -> Outcome<Counts> {
    let (mut dice, mut counts) = (Dice::of(told.seed), Counts::new());
    for number in 0..told.times {
        let (name, args) = mutation(told, &mut dice, number);
        let made = loop {
            match place.mutate(name, &args, now()) {
                Err(Refusal::Full) => count(&mut counts, "full"),
                made => break made,
            }
            thread::sleep(FULL);
        };
        match made {
            Ok(_) => count(&mut counts, "made"),
            Err(Refusal::Refused(_)) => count(&mut counts, "refused"),
            Err(refusal) => return Err(refusal.into()),
        }
        if name == "count" {
            count(&mut counts, "counted");
        }
        thread::sleep(dice.part_of(told.pause));
    }
    Ok(counts)
}

/// Syncs, and goes offline at random, until the mutations are made; a watch is polled in between.
fn sync_now_and_then(told: &Told, place: &mut Place, has_mutated: &AtomicBool) -> Outcome<Counts> {
    let (mut dice, mut counts) = (Dice::of(told.seed + 1), Counts::new());
    let watch = place.watch(&Scan::of("todo/"))?;
    while !has_mutated.load(Ordering::SeqCst) {
        if dice.below(10) < 3 {
            count(&mut counts, "offline");
            thread::sleep(dice.part_of(OFFLINE));
        }
        sync(told.port, place, &mut counts)?;
        if place.poll(&watch)?.is_some() {
            count(&mut counts, "shown");
        }
    }
    while place.pending()? != b"[]" {
        sync(told.port, place, &mut counts)?;
    }
    Ok(counts)
}

/// The two threads, until nothing is pending.
fn run(told: &Told, mutating: &mut Place, syncing: &mut Place) -> Outcome<Counts> {
    let has_mutated = AtomicBool::new(false);
    thread::scope(|scope| {
        let synced = scope.spawn(|| sync_now_and_then(told, syncing, &has_mutated));
        let made = mutate(told, mutating);
        has_mutated.store(true, Ordering::SeqCst);
        let mut counts = synced.join().map_err(|_| "the syncing thread panicked")??;
        counts.extend(made?);
        Ok(counts)
    })
}

/// Pulls once more, and prints what the process ends with.
fn report(told: &Told, places: [&mut Place; 2], mut counts: Counts) -> Outcome<()> {
    let [mutating, syncing] = places;
    while !sync(told.port, syncing, &mut counts)? {}
    let clients = [(1, mutating.refresh()?), (2, syncing.refresh()?)];
    let clients = clients.map(|(number, last)| format!(r#""{}":{last}"#, told.uuid(number))).join(",");
    let counts: Vec<String> = counts.iter().map(|(what, times)| format!(r#""{what}":{times}"#)).collect();
    let pending = String::from_utf8(mutating.pending()?.to_vec())?;
    let rows = std::str::from_utf8(mutating.scan(&Scan::default())?)?;
    println!(r#"{{"rows":{rows},"pending":{pending},"clients":{{{clients}}},"counts":{{{}}}}}"#, counts.join(","));
    Ok(())
}

fn main() -> Outcome<()> {
    let told = Told::of(std::env::args().skip(1))?;
    let id = &told.uuid(0);
    let group = Group { id, profile: "demo", schema: "1", rules: RULES, own_mutators: false, slots: SLOTS };
    let [mut mutating, mut syncing] = group.open()?;
    mutating.sit(&told.uuid(1))?;
    syncing.sit(&told.uuid(2))?;
    let counts = run(&told, &mut mutating, &mut syncing)?;
    println!("quiet");
    io::stdin().lock().read_line(&mut String::new())?;
    report(&told, [&mut mutating, &mut syncing], counts)
}
