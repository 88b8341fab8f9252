//! A group of persistent maps: each change makes a version of them, which is published by an exchange of one pointer.
//!
//! Readers take no lock; those who change wait for each other at one. Texts are shared, so that a copied node of a map
//! copies counts alone. Left out: a mutator that fails after it has put something isn't undone, a client's last ID is
//! the caller's to know, that another pull overtook this one, cookies with a field `order`, closing, and names that
//! come twice in a response.
use arc_swap::ArcSwap;
use baselines::wire::{push_body, write_row, Change, Cookie, Response};
use baselines::{keep_others, run, Args, Group, Identity, Mutation, Refusal, Rows, Text, View};
use im::{OrdMap, Vector};
use std::cmp::Ordering;
use std::collections::HashMap;
use std::ops::Bound;
use std::sync::{Arc, Mutex};

#[cfg(not(feature = "owned_texts"))]
type Kept = Arc<str>;
#[cfg(feature = "owned_texts")]
type Kept = String;

#[derive(Clone, Default)]
struct Map(OrdMap<Kept, Kept>);

impl View for Map {
    fn get(&self, key: &str) -> Option<&str> {
        self.0.get(key).map(|value| &**value)
    }

    fn put(&mut self, key: &str, value: String) {
        match self.0.get_mut(key) {
            Some(there) => *there = Kept::from(value),
            None => {
                self.0.insert(Kept::from(key), Kept::from(value));
            }
        }
    }
}

impl Map {
    fn apply(&mut self, patch: Vec<Change>) {
        for change in patch {
            match change {
                Change::Put(key, value) => {
                    self.0.insert(Kept::from(key), Kept::from(value));
                }
                Change::Del(key) => {
                    self.0.remove(&*key);
                }
                Change::Clear => self.0.clear(),
            }
        }
    }
}

#[derive(Clone)]
struct Version {
    cookie: Cookie,
    ids: Arc<HashMap<String, u64>>,
    pulled: Map,
    view: Map,
    pending: Vector<Arc<Mutation>>,
}

impl Version {
    fn check(&self, response: &Response) -> Result<(), Refusal> {
        if response.cookie.order(&self.cookie) == Ordering::Less {
            return Err(Refusal::CookieWentBack);
        }
        for (client, id) in &response.ids {
            if *id < self.ids.get(client).copied().unwrap_or(0) {
                return Err(Refusal::IdWentBack);
            }
        }
        Ok(())
    }

    fn pulled(&self, response: Response) -> Version {
        let mut ids = (*self.ids).clone();
        ids.extend(response.ids);
        let mut pulled = self.pulled.clone();
        pulled.apply(response.patch);
        let mut view = pulled.clone();
        let confirmed = |m: &Arc<Mutation>| m.id <= ids.get(&*m.client).copied().unwrap_or(0);
        let pending: Vector<_> = self.pending.iter().filter(|m| !confirmed(m)).cloned().collect();
        for mutation in &pending {
            let _ = run(&mutation.name, mutation.args.get(), &mut view);
        }
        Version { cookie: response.cookie, ids: Arc::new(ids), pulled, view, pending }
    }
}

struct Persistent {
    identity: Identity,
    changing: Mutex<()>,
    version: ArcSwap<Version>,
}

impl Group for Persistent {
    const VARIANT: &'static str = "persistent";
    type Kept = Kept;

    fn new(identity: Identity) -> Persistent {
        let version = ArcSwap::from_pointee(Version {
            cookie: Cookie::Null,
            ids: Arc::default(),
            pulled: Map::default(),
            view: Map::default(),
            pending: Vector::new(),
        });
        Persistent { identity, changing: Mutex::new(()), version }
    }

    fn get(&self, key: &str, out: &mut Vec<u8>) {
        let version = self.version.load();
        if let Some(value) = version.view.get(key) {
            out.extend_from_slice(value.as_bytes());
        }
    }

    fn get_each(&self, keys: &[String], out: &mut Vec<u8>) {
        let version = self.version.load();
        for key in keys {
            out.clear();
            if let Some(value) = version.view.get(key) {
                out.extend_from_slice(value.as_bytes());
            }
        }
    }

    fn scan(&self, prefix: &str, limit: usize, out: &mut Vec<u8>) {
        let version = self.version.load();
        out.clear();
        out.push(b'[');
        let from = version.view.0.range::<_, str>((Bound::Included(prefix), Bound::Unbounded));
        for (key, value) in from.take_while(|(key, _)| key.starts_with(prefix)).take(limit) {
            write_row(out, key, value);
        }
        out.push(b']');
    }

    fn poll(&self, prefix: &str, kept: &mut Rows<Kept>) -> bool {
        let version = self.version.load();
        let from = || version.view.0.range::<_, str>((Bound::Included(prefix), Bound::Unbounded));
        keep_others(|| from().take_while(|(key, _)| key.starts_with(prefix)), kept)
    }

    fn mutate(&self, client: &Text, id: u64, name: &Text, args: &Args, time: u64) -> Result<(), Refusal> {
        let _changing = self.changing.lock().unwrap();
        let mut version = Version::clone(&self.version.load());
        run(name, args.get(), &mut version.view)?;
        version.pending.push_back(Arc::new(Mutation {
            client: client.clone(),
            id,
            name: name.clone(),
            args: args.clone(),
            timestamp: time,
        }));
        self.version.store(Arc::new(version));
        Ok(())
    }

    fn push_body(&self) -> Vec<u8> {
        let version = self.version.load();
        push_body(&self.identity, version.pending.iter().map(|mutation| &**mutation))
    }

    fn end_pull(&self, response: Response) -> Result<(), Refusal> {
        let _changing = self.changing.lock().unwrap();
        let version = self.version.load_full();
        version.check(&response)?;
        self.version.store(Arc::new(version.pulled(response)));
        Ok(())
    }
}

fn main() {
    baselines::jobs::main::<Persistent>();
}
