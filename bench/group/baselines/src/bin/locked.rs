//! A group in a lock: the pulled map and the view, each a `BTreeMap`, and what is pending as a list.
//!
//! A pull puts its patch into the pulled map, clones that, and runs what stays pending on the clone. Left out: a
//! mutator that fails after it has put something isn't undone, a client's last ID is the caller's to know, that another
//! pull overtook this one, cookies with a field `order`, closing, and names that come twice in a response. Nobody reads
//! while a pull is applied; the response is read before the lock is taken, and the old view is dropped after it.
use baselines::wire::{push_body, write_row, Change, Cookie, Response};
use baselines::{keep_others, run, Args, Group, Identity, Mutation, Refusal, Rows, Text, View};
use std::cmp::Ordering;
use std::collections::{BTreeMap, HashMap};
use std::ops::Bound;
use std::sync::RwLock;

#[derive(Clone, Default)]
struct Map(BTreeMap<String, String>);

impl View for Map {
    fn get(&self, key: &str) -> Option<&str> {
        self.0.get(key).map(String::as_str)
    }

    fn put(&mut self, key: &str, value: String) {
        match self.0.get_mut(key) {
            Some(there) => *there = value,
            None => {
                self.0.insert(key.to_string(), value);
            }
        }
    }
}

impl Map {
    fn apply(&mut self, patch: Vec<Change>) {
        for change in patch {
            match change {
                Change::Put(key, value) => {
                    self.0.insert(key, value);
                }
                Change::Del(key) => {
                    self.0.remove(&key);
                }
                Change::Clear => self.0.clear(),
            }
        }
    }
}

struct State {
    cookie: Cookie,
    ids: HashMap<String, u64>,
    pulled: Map,
    view: Map,
    pending: Vec<Mutation>,
}

impl State {
    fn check(&self, response: &Response) -> Result<(), Refusal> {
        if response.cookie.order(&self.cookie) == Ordering::Less {
            return Err(Refusal::CookieWentBack);
        }
        for (client, id) in &response.ids {
            if *id < self.ids.get(client).copied().unwrap_or(0) {
                return Err(Refusal::IdWentBack);
            }
        }
        Ok(())
    }

    fn is_confirmed(&self, mutation: &Mutation) -> bool {
        mutation.id <= self.ids.get(&*mutation.client).copied().unwrap_or(0)
    }
}

struct Locked {
    identity: Identity,
    state: RwLock<State>,
}

impl Group for Locked {
    const VARIANT: &'static str = "locked";
    type Kept = String;

    fn new(identity: Identity) -> Locked {
        let state = RwLock::new(State {
            cookie: Cookie::Null,
            ids: HashMap::new(),
            pulled: Map::default(),
            view: Map::default(),
            pending: Vec::new(),
        });
        Locked { identity, state }
    }

    fn get(&self, key: &str, out: &mut Vec<u8>) {
        let state = self.state.read().unwrap();
        if let Some(value) = state.view.get(key) {
            out.extend_from_slice(value.as_bytes());
        }
    }

    fn get_each(&self, keys: &[String], out: &mut Vec<u8>) {
        let state = self.state.read().unwrap();
        for key in keys {
            out.clear();
            if let Some(value) = state.view.get(key) {
                out.extend_from_slice(value.as_bytes());
            }
        }
    }

    fn scan(&self, prefix: &str, limit: usize, out: &mut Vec<u8>) {
        let state = self.state.read().unwrap();
        out.clear();
        out.push(b'[');
        let from = state.view.0.range::<str, _>((Bound::Included(prefix), Bound::Unbounded));
        for (key, value) in from.take_while(|(key, _)| key.starts_with(prefix)).take(limit) {
            write_row(out, key, value);
        }
        out.push(b']');
    }

    fn poll(&self, prefix: &str, kept: &mut Rows<String>) -> bool {
        let state = self.state.read().unwrap();
        let from = || state.view.0.range::<str, _>((Bound::Included(prefix), Bound::Unbounded));
        keep_others(|| from().take_while(|(key, _)| key.starts_with(prefix)), kept)
    }

    fn mutate(&self, client: &Text, id: u64, name: &Text, args: &Args, time: u64) -> Result<(), Refusal> {
        let mut state = self.state.write().unwrap();
        run(name, args.get(), &mut state.view)?;
        state.pending.push(Mutation {
            client: client.clone(),
            id,
            name: name.clone(),
            args: args.clone(),
            timestamp: time,
        });
        Ok(())
    }

    fn push_body(&self) -> Vec<u8> {
        let pending = self.state.read().unwrap().pending.clone();
        push_body(&self.identity, pending.iter())
    }

    fn end_pull(&self, response: Response) -> Result<(), Refusal> {
        let mut guard = self.state.write().unwrap();
        let state = &mut *guard;
        state.check(&response)?;
        state.cookie = response.cookie;
        state.ids.extend(response.ids);
        state.pulled.apply(response.patch);
        let mut view = state.pulled.clone();
        let mut pending = std::mem::take(&mut state.pending);
        pending.retain(|mutation| !state.is_confirmed(mutation));
        for mutation in &pending {
            let _ = run(&mutation.name, mutation.args.get(), &mut view);
        }
        state.pending = pending;
        let old = std::mem::replace(&mut state.view, view);
        drop(guard);
        drop(old);
        Ok(())
    }
}

fn main() {
    baselines::jobs::main::<Locked>();
}
