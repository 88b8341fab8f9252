//! The jobs of one thread, as the program of this bench has them.
//!
//! A function that a job times is never a part of its caller, so that `bench/group/count` finds it.
use crate::bodies::{body, Members, Puts, NOTHING};
use crate::crowds::{clients_in_turn, idle_first, mutate_threads};
use crate::filled::{args, args_of, asked, many_args, Filled};
use crate::numbers::Numbers;
use crate::wire::read_response;
use crate::{Args, Group, Rows};
use std::hint::black_box;
use std::io::{self, BufRead};

const GETS: u64 = 300_000;
const MUTATIONS: u64 = 200;
const PUTS: u64 = 10_000;
const ROUNDS: u64 = 50;
const IN_A_ROW: u64 = 20;
const SCANS: u64 = 2_000;
const ROWS: u64 = 100;

/// Nanoseconds of the processor that this thread took.
fn now() -> u64 {
    let mut time = libc::timespec { tv_sec: 0, tv_nsec: 0 };
    unsafe { libc::clock_gettime(libc::CLOCK_THREAD_CPUTIME_ID, &mut time) };
    time.tv_sec as u64 * 1_000_000_000 + time.tv_nsec as u64
}

/// The least time of one operation, of so many turns.
pub fn best(turns: u64, operations: u64, mut turn: impl FnMut()) -> u64 {
    (0..turns)
        .map(|_| {
            let start = now();
            turn();
            (now() - start) / operations
        })
        .min()
        .unwrap_or(0)
}

#[inline(never)]
fn get_each<G: Group>(group: &G, keys: &[String], out: &mut Vec<u8>) {
    for key in keys {
        out.clear();
        group.get(key, out);
    }
}

fn get<G: Group>(keys: u64) -> u64 {
    let filled = Filled::<G>::new(keys);
    let asked = asked(77, keys, GETS);
    let mut out = Vec::new();
    best(7, GETS, || get_each(&*filled.group, &asked, &mut out))
}

fn get_in_one<G: Group>(keys: u64) -> u64 {
    let filled = Filled::<G>::new(keys);
    let asked = asked(77, keys, GETS);
    let mut out = Vec::new();
    best(7, GETS, || filled.group.get_each(&asked, &mut out))
}

fn mutate<G: Group>(keys: u64, pending: u64) -> u64 {
    let mut filled = Filled::<G>::new(keys);
    let args = many_args(3, MUTATIONS);
    let mut least = u64::MAX;
    for _ in 0..15 {
        filled.add(pending);
        least = least.min(best(1, MUTATIONS, || filled.incr_each(&args)));
        filled.confirm();
    }
    least
}

fn args_of_new(numbers: &mut Numbers, keys: u64) -> Vec<Args> {
    (0..MUTATIONS)
        .map(|_| {
            let (number, beside) = (numbers.below(keys), numbers.below(1_000_000));
            let text = "buy some milk and more of it, and bread and butter";
            args_of(format!(r#"["item/{number:08}x{beside}","{text}"]"#))
        })
        .collect()
}

fn new_key<G: Group>(keys: u64) -> u64 {
    let mut filled = Filled::<G>::new(keys);
    let mut numbers = Numbers::new(9);
    let mut least = u64::MAX;
    for _ in 0..10 {
        let args = args_of_new(&mut numbers, keys);
        least = least.min(best(1, MUTATIONS, || filled.set_each(&args)));
        filled.confirm();
    }
    least
}

#[inline(never)]
fn end_once<G: Group>(filled: &Filled<G>, body: &[u8]) {
    filled.end(body);
}

fn pull<G: Group>(keys: u64, members: Members) -> u64 {
    let mut least = u64::MAX;
    for _ in 0..5 {
        let mut filled = Filled::<G>::new(keys);
        let body = filled.response(Puts { members, ..Puts::of(keys.saturating_sub(PUTS / 2), PUTS) });
        least = least.min(best(1, 1, || end_once(&filled, &body)));
    }
    least
}

fn confirm<G: Group>(keys: u64, pending: u64) -> u64 {
    let mut filled = Filled::<G>::new(keys);
    let mut least = u64::MAX;
    for _ in 0..7 {
        filled.add(pending);
        let body = filled.response(NOTHING);
        least = least.min(best(1, 1, || end_once(&filled, &body)));
    }
    least
}

#[inline(never)]
fn go_round<G: Group>(filled: &mut Filled<G>, args: &[Args], bodies: &[Vec<u8>]) {
    for (one, body) in args.iter().zip(bodies) {
        filled.incr(one);
        drop(black_box(filled.group.push_body()));
        filled.end(body);
    }
}

fn round<G: Group>(keys: u64) -> u64 {
    let mut filled = Filled::<G>::new(keys);
    let args = many_args(3, ROUNDS);
    let mut least = u64::MAX;
    for _ in 0..7 {
        let bodies = filled.responses(ROUNDS, Puts::of(9, 1));
        least = least.min(best(1, ROUNDS, || go_round(&mut filled, &args, &bodies)));
    }
    least
}

fn rebase<G: Group>(keys: u64, pending: u64) -> u64 {
    let mut filled = Filled::<G>::new(keys);
    filled.add(pending);
    let mut least = u64::MAX;
    for _ in 0..7 {
        let body = filled.response_of_none(Puts::of(7, 1));
        least = least.min(best(1, 1, || end_once(&filled, &body)));
    }
    least
}

fn rebase_first<G: Group>(keys: u64, pending: u64) -> u64 {
    let mut filled = Filled::<G>::new(keys);
    let mut least = u64::MAX;
    for _ in 0..7 {
        filled.add(pending);
        let body = filled.response_of_none(Puts::of(7, 1));
        least = least.min(best(1, 1, || end_once(&filled, &body)));
        filled.confirm();
    }
    least
}

/// What is changed before a poll.
#[derive(Clone, Copy, PartialEq)]
enum Change {
    Nothing,
    Elsewhere,
    Inside,
}

#[inline(never)]
fn poll_each<G: Group>(group: &G, kept: &mut Rows<G::Kept>, change: Change, times: u64) {
    for _ in 0..times {
        assert_eq!(group.poll("item/", kept), change == Change::Inside);
    }
}

fn poll<G: Group>(keys: u64, change: Change) -> u64 {
    let mut filled = Filled::<G>::new(keys);
    let mut kept = Vec::new();
    filled.group.poll("item/", &mut kept);
    let polls = if change == Change::Nothing { IN_A_ROW } else { 1 };
    let mut least = u64::MAX;
    for turn in 0..9 {
        match change {
            Change::Nothing => (),
            Change::Elsewhere => filled.incr(&args(turn)),
            Change::Inside => filled.set(&args_of(format!(r#"["item/{:08}",{turn}]"#, turn * 977 % keys))),
        }
        least = least.min(best(1, polls, || poll_each(&*filled.group, &mut kept, change, polls)));
    }
    least
}

fn scan<G: Group>(keys: u64) -> u64 {
    let filled = Filled::<G>::new(keys);
    let mut out = Vec::new();
    best(7, SCANS, || {
        let mut numbers = Numbers::new(21);
        for _ in 0..SCANS {
            let prefix = format!("item/{:06}", numbers.below(keys / ROWS));
            filled.group.scan(&prefix, ROWS as usize, &mut out);
        }
    })
}

fn push<G: Group>(keys: u64, pending: u64) -> u64 {
    let mut filled = Filled::<G>::new(keys);
    filled.add(pending);
    best(25, 1, || drop(black_box(filled.group.push_body())))
}

#[inline(never)]
fn read_once(body: &[u8]) {
    drop(black_box(read_response(body).expect("the response can be read")));
}

fn read(keys: u64, members: Members) -> u64 {
    let body = body(1, 0, Puts { members, ..Puts::of(0, keys) });
    best(15, 1, || read_once(&body))
}

fn run<G: Group>(job: &str, keys: u64, pending: u64) -> Option<u64> {
    Some(match job {
        "get" => get::<G>(keys),
        "get_in_one" => get_in_one::<G>(keys),
        "mutate" => mutate::<G>(keys, pending),
        "clients_in_turn" => clients_in_turn::<G>(keys, pending),
        "idle_first" => idle_first::<G>(keys, pending),
        "mutate_threads" => mutate_threads::<G>(keys, pending),
        "new_key" => new_key::<G>(keys),
        "pull" => pull::<G>(keys, Members::Sorted),
        "pull_unsorted" => pull::<G>(keys, Members::AsMade),
        "confirm" => confirm::<G>(keys, pending),
        "round" => round::<G>(keys),
        "rebase" => rebase::<G>(keys, pending),
        "rebase_first" => rebase_first::<G>(keys, pending),
        "poll_same" => poll::<G>(keys, Change::Nothing),
        "poll_elsewhere" => poll::<G>(keys, Change::Elsewhere),
        "poll_inside" => poll::<G>(keys, Change::Inside),
        "scan" => scan::<G>(keys),
        "push" => push::<G>(keys, pending),
        "read" => read(keys, Members::Sorted),
        "read_unsorted" => read(keys, Members::AsMade),
        _ => return None,
    })
}

fn run_line<G: Group>(line: &str) -> Option<()> {
    let mut words = line.split(' ');
    let job = words.next()?;
    let keys = words.next()?.parse().ok()?;
    let pending = words.next()?.parse().ok()?;
    if job == "readers" {
        for (what, value, unit) in crate::threads::readers::<G>(keys, pending) {
            println!("{what}\t{}\t{keys}\t{pending}\t{value}\t{unit}", G::VARIANT);
        }
        return Some(());
    }
    let value = run::<G>(job, keys, pending)?;
    let unit = if job == "mutate_threads" { "a second" } else { "ns" };
    println!("{job}\t{}\t{keys}\t{pending}\t{value}\t{unit}", G::VARIANT);
    Some(())
}

/// Runs the jobs of the lines of standard input.
pub fn main<G: Group>() {
    for line in io::stdin().lock().lines() {
        run_line::<G>(&line.expect("standard input can be read"));
    }
}
