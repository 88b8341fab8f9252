//! A group whose view is concread's B+ tree: readers have snapshots, and one writer at a time makes the next one.
//!
//! Left out: what `persistent` leaves out. A rebase sets the keys of the pending mutations back to their pulled values,
//! which is right for the mutators of the jobs alone: each changes the key that its arguments begin with.
use baselines::wire::{push_body, write_row, Change, Cookie, Response};
use baselines::{keep_others, run, Args, Group, Identity, Mutation, Refusal, Rows, Text, View};
use concread::bptree::{BptreeMap, BptreeMapWriteTxn};
use serde::de::IgnoredAny;
use std::collections::{BTreeMap, HashMap};
use std::ops::Bound;
use std::sync::{Arc, Mutex};

type Kept = Arc<str>;

struct Writer<'a>(BptreeMapWriteTxn<'a, Kept, Kept>);

impl View for Writer<'_> {
    fn get(&self, key: &str) -> Option<&str> {
        self.0.get(key).map(|value| &**value)
    }

    fn put(&mut self, key: &str, value: String) {
        self.0.insert(Kept::from(key), Kept::from(value));
    }
}

struct State {
    ids: HashMap<String, u64>,
    pulled: BTreeMap<Kept, Kept>,
    pending: Vec<Mutation>,
    cookie: Cookie,
}

impl State {
    fn new() -> State {
        State { ids: HashMap::new(), pulled: BTreeMap::new(), pending: Vec::new(), cookie: Cookie::Null }
    }

    /// Sets the keys that pending mutations changed back to what was pulled.
    fn undo(&self, view: &mut Writer<'_>) {
        for mutation in &self.pending {
            let (key, _): (String, IgnoredAny) = serde_json::from_str(mutation.args.get()).expect("arguments are read");
            match self.pulled.get(&*key) {
                Some(value) => drop(view.0.insert(Kept::from(key), value.clone())),
                None => drop(view.0.remove(&Kept::from(key))),
            }
        }
    }

    fn apply(&mut self, view: &mut Writer<'_>, patch: Vec<Change>) {
        for change in patch {
            match change {
                Change::Put(key, value) => {
                    let (key, value): (Kept, Kept) = (key.into(), value.into());
                    self.pulled.insert(key.clone(), value.clone());
                    view.0.insert(key, value);
                }
                Change::Del(key) => {
                    self.pulled.remove(&*key);
                    view.0.remove(&Kept::from(key));
                }
                Change::Clear => {
                    self.pulled.clear();
                    view.0.clear();
                }
            }
        }
    }
}

struct Snapshots {
    identity: Identity,
    view: BptreeMap<Kept, Kept>,
    state: Mutex<State>,
}

impl Group for Snapshots {
    const VARIANT: &'static str = "concread";
    type Kept = Kept;

    fn new(identity: Identity) -> Snapshots {
        Snapshots { identity, view: BptreeMap::new(), state: Mutex::new(State::new()) }
    }

    fn get(&self, key: &str, out: &mut Vec<u8>) {
        if let Some(value) = self.view.read().get(key) {
            out.extend_from_slice(value.as_bytes());
        }
    }

    fn get_each(&self, keys: &[String], out: &mut Vec<u8>) {
        let view = self.view.read();
        for key in keys {
            out.clear();
            if let Some(value) = view.get(&**key) {
                out.extend_from_slice(value.as_bytes());
            }
        }
    }

    fn scan(&self, prefix: &str, limit: usize, out: &mut Vec<u8>) {
        let view = self.view.read();
        out.clear();
        out.push(b'[');
        let rows = view.range((Bound::Included(Kept::from(prefix)), Bound::Unbounded));
        for (key, value) in rows.take_while(|(key, _)| key.starts_with(prefix)).take(limit) {
            write_row(out, key, value);
        }
        out.push(b']');
    }

    fn poll(&self, prefix: &str, kept: &mut Rows<Kept>) -> bool {
        let view = self.view.read();
        let from = || view.range((Bound::Included(Kept::from(prefix)), Bound::Unbounded));
        keep_others(|| from().take_while(|(key, _)| key.starts_with(prefix)), kept)
    }

    fn mutate(&self, client: &Text, id: u64, name: &Text, args: &Args, time: u64) -> Result<(), Refusal> {
        let mut state = self.state.lock().expect("the lock");
        let mut view = Writer(self.view.write());
        run(name, args.get(), &mut view)?;
        view.0.commit();
        state.pending.push(Mutation {
            client: client.clone(),
            id,
            name: name.clone(),
            args: args.clone(),
            timestamp: time,
        });
        Ok(())
    }

    fn push_body(&self) -> Vec<u8> {
        let pending = self.state.lock().expect("the lock").pending.clone();
        push_body(&self.identity, pending.iter())
    }

    fn end_pull(&self, response: Response) -> Result<(), Refusal> {
        let mut state = self.state.lock().expect("the lock");
        state.cookie = response.cookie;
        state.ids.extend(response.ids);
        let mut view = Writer(self.view.write());
        state.undo(&mut view);
        state.apply(&mut view, response.patch);
        let State { ids, pending, .. } = &mut *state;
        pending.retain(|mutation| mutation.id > ids.get(&*mutation.client).copied().unwrap_or(0));
        for mutation in pending.iter() {
            let _ = run(&mutation.name, mutation.args.get(), &mut view);
        }
        view.0.commit();
        Ok(())
    }
}

fn main() {
    baselines::jobs::main::<Snapshots>();
}
