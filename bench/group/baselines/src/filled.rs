//! A group that is filled, and its client.
use crate::bodies::{body, item, Puts, CLIENT, COUNTERS, NOTHING};
use crate::numbers::Numbers;
use crate::{Args, Group, Identity, Text};
use serde_json::value::RawValue;
use std::sync::Arc;

/// A pull brings at most so many items while a group is filled.
const PART: u64 = 10_000;

pub fn args_of(text: String) -> Args {
    Arc::from(RawValue::from_string(text).expect("arguments are JSON"))
}

pub fn args(number: u64) -> Args {
    args_of(format!(r#"["ctr/{number:04}",1]"#))
}

pub fn many_args(seed: u64, count: u64) -> Vec<Args> {
    let mut numbers = Numbers::new(seed);
    (0..count).map(|_| args(numbers.below(COUNTERS))).collect()
}

pub fn asked(seed: u64, keys: u64, count: u64) -> Vec<String> {
    let mut numbers = Numbers::new(seed);
    (0..count).map(|_| item(numbers.below(keys))).collect()
}

pub struct Filled<G> {
    pub group: Arc<G>,
    pub keys: u64,
    client: Text,
    incr: Text,
    set: Text,
    cookie: u64,
    id: u64,
    confirmed: u64,
}

impl<G: Group> Filled<G> {
    pub fn new(keys: u64) -> Filled<G> {
        let mut filled = Filled {
            group: Arc::new(G::new(Identity::bench())),
            keys,
            client: Text::from(CLIENT),
            incr: Text::from("incr"),
            set: Text::from("set"),
            cookie: 0,
            id: 0,
            confirmed: 0,
        };
        for part in 0..keys.div_ceil(PART) {
            let from = part * PART;
            filled.pull(Puts { counters: part == 0, ..Puts::of(from, (keys - from).min(PART)) });
        }
        filled
    }

    /// The next response, which confirms all.
    pub fn response(&mut self, puts: Puts) -> Vec<u8> {
        self.confirmed = self.id;
        self.response_of_none(puts)
    }

    /// The next response, which confirms nothing more.
    pub fn response_of_none(&mut self, puts: Puts) -> Vec<u8> {
        self.cookie += 1;
        body(self.cookie, self.confirmed, puts)
    }

    /// Responses of which each confirms one mutation more, beginning with the next one.
    pub fn responses(&mut self, count: u64, puts: Puts) -> Vec<Vec<u8>> {
        self.confirmed = self.id;
        (0..count)
            .map(|_| {
                self.confirmed += 1;
                self.response_of_none(puts)
            })
            .collect()
    }

    pub fn end(&self, body: &[u8]) {
        self.group.end_pull_bytes(body).expect("the pull is applied");
    }

    fn pull(&mut self, puts: Puts) {
        let body = self.response(puts);
        self.end(&body);
    }

    pub fn confirm(&mut self) {
        self.pull(NOTHING);
    }

    pub fn incr(&mut self, args: &Args) {
        self.id += 1;
        self.group.mutate(&self.client, self.id, &self.incr, args, 1).expect("the mutation is made");
    }

    pub fn set(&mut self, args: &Args) {
        self.id += 1;
        self.group.mutate(&self.client, self.id, &self.set, args, 1).expect("the mutation is made");
    }

    #[inline(never)]
    pub fn incr_each(&mut self, args: &[Args]) {
        args.iter().for_each(|one| self.incr(one));
    }

    #[inline(never)]
    pub fn set_each(&mut self, args: &[Args]) {
        args.iter().for_each(|one| self.set(one));
    }

    pub fn add(&mut self, count: u64) {
        let mut numbers = Numbers::new(5);
        for _ in 0..count {
            self.incr(&args(numbers.below(COUNTERS)));
        }
    }
}
