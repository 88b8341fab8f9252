//! The jobs of many clients: in turn on one thread, or each on a thread of its own.
use crate::bodies::client_id;
use crate::filled::{args, many_args, Filled};
use crate::jobs::best;
use crate::{Args, Group, Text};
use std::time::Instant;

const IN_TURN: u64 = 512;
const OF_THREADS: u64 = 200_000;
const ARGS: u64 = 500;

/// A client that has made so many mutations.
struct Player {
    client: Text,
    id: u64,
}

impl Player {
    /// The client with this number, beside that of the filled group.
    fn new(number: u64) -> Player {
        Player { client: Text::from(client_id(number)), id: 0 }
    }

    fn mutate<G: Group>(&mut self, group: &G, incr: &Text, args: &Args) {
        self.id += 1;
        group.mutate(&self.client, self.id, incr, args, 1).expect("the mutation is made");
    }
}

fn players(count: u64) -> Vec<Player> {
    (1..=count).map(Player::new).collect()
}

#[inline(never)]
fn in_turn<G: Group>(group: &G, players: &mut [Player], incr: &Text, args: &[Args]) {
    for part in args.chunks(players.len()) {
        for (player, one) in players.iter_mut().zip(part) {
            player.mutate(group, incr, one);
        }
    }
}

/// So many clients mutate in turn; nothing is confirmed.
pub fn clients_in_turn<G: Group>(keys: u64, clients: u64) -> u64 {
    let filled = Filled::<G>::new(keys);
    let (mut players, incr) = (players(clients), Text::from("incr"));
    in_turn(&*filled.group, &mut players, &incr, &many_args(7, clients));
    let args = many_args(3, IN_TURN);
    best(8, IN_TURN, || in_turn(&*filled.group, &mut players, &incr, &args))
}

/// The next mutation of a client since which another one made so many.
pub fn idle_first<G: Group>(keys: u64, pending: u64) -> u64 {
    let mut filled = Filled::<G>::new(keys);
    let (mut idle, incr, one) = (Player::new(1), Text::from("incr"), args(1));
    let mut least = u64::MAX;
    for _ in 0..7 {
        idle.mutate(&*filled.group, &incr, &one);
        filled.add(pending);
        least = least.min(best(1, 1, || idle.mutate(&*filled.group, &incr, &one)));
        filled.confirm();
    }
    least
}

fn write<G: Group>(group: &G, player: &mut Player, args: &[Args], turns: u64) {
    let incr = Text::from("incr");
    for _ in 0..turns {
        for one in args {
            player.mutate(group, &incr, one);
        }
    }
}

fn threads_once<G: Group>(keys: u64, threads: u64) -> u64 {
    let filled = Filled::<G>::new(keys);
    let args: Vec<_> = (0..threads).map(|_| many_args(3, ARGS)).collect();
    let mut players = players(threads);
    let turns = OF_THREADS / ARGS / threads;
    let start = Instant::now();
    std::thread::scope(|scope| {
        for (player, args) in players.iter_mut().zip(&args) {
            let group = &filled.group;
            scope.spawn(move || write(&**group, player, args, turns));
        }
    });
    let seconds = start.elapsed().as_secs_f64();
    ((turns * ARGS * threads) as f64 / seconds) as u64
}

/// Mutations a second, of the clock, by so many threads together; nothing is confirmed.
pub fn mutate_threads<G: Group>(keys: u64, threads: u64) -> u64 {
    (0..3).map(|_| threads_once::<G>(keys, threads)).max().unwrap_or(0)
}
