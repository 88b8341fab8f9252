//! What both baselines share: mutations and mutators, responses and requests, and the jobs.
pub mod bodies;
pub mod crowds;
pub mod filled;
pub mod jobs;
pub mod numbers;
pub mod threads;
pub mod wire;

use serde_json::Value;
use std::sync::Arc;
use wire::Response;

pub type Text = Arc<str>;

/// A mutation that isn't confirmed.
#[derive(Clone)]
pub struct Mutation {
    pub client: Text,
    pub id: u64,
    pub name: Text,
    pub args: Arc<serde_json::value::RawValue>,
    pub timestamp: u64,
}

/// Whose requests are written.
pub struct Identity {
    pub group: String,
    pub profile: String,
    pub schema: String,
}

impl Identity {
    pub fn bench() -> Identity {
        Identity {
            group: "00000000-0000-4000-8000-0000000000aa".to_string(),
            profile: "p1".to_string(),
            schema: "s1".to_string(),
        }
    }
}

/// Why a call is refused.
#[derive(Debug)]
pub enum Refusal {
    NotJson,
    BadShape,
    CookieWentBack,
    IdWentBack,
    Stale,
    Mutator(u32),
    Unknown,
}

/// The view of a mutator.
pub trait View {
    fn get(&self, key: &str) -> Option<&str>;
    fn put(&mut self, key: &str, value: String);
}

/// Runs the mutator of a name. It reads its arguments as JSON, and so it does the value at the key.
pub fn run<V: View>(name: &str, args: &str, view: &mut V) -> Result<(), Refusal> {
    match name {
        "incr" => {
            let (key, by): (String, i64) = serde_json::from_str(args).map_err(|_| Refusal::Mutator(1))?;
            let there = view.get(&key).ok_or(Refusal::Mutator(2))?;
            let old: i64 = serde_json::from_str(there).map_err(|_| Refusal::Mutator(3))?;
            let sum = old.checked_add(by).ok_or(Refusal::Mutator(4))?;
            view.put(&key, sum.to_string());
            Ok(())
        }
        "set" => {
            let (key, value): (String, Value) = serde_json::from_str(args).map_err(|_| Refusal::Mutator(1))?;
            view.put(&key, value.to_string());
            Ok(())
        }
        _ => Err(Refusal::Unknown),
    }
}

/// What the jobs call. Each may be called from any thread.
pub trait Group: Send + Sync {
    const VARIANT: &'static str;
    /// A key or a value as it is kept.
    type Kept: Clone + PartialEq;
    fn new(identity: Identity) -> Self;
    /// Puts the value's text into `out` where the key is there.
    fn get(&self, key: &str, out: &mut Vec<u8>);
    /// Gets of one reading.
    fn get_each(&self, keys: &[String], out: &mut Vec<u8>);
    /// Writes so many rows at most, whose keys begin so, as JSON.
    fn scan(&self, prefix: &str, limit: usize, out: &mut Vec<u8>);
    /// Keeps the rows whose keys begin so in place of those that were kept, where they are others, and says whether.
    fn poll(&self, prefix: &str, kept: &mut Rows<Self::Kept>) -> bool;
    /// Makes the client's mutation with this ID, and publishes what it leaves.
    fn mutate(&self, client: &Text, id: u64, name: &Text, args: &Args, time: u64) -> Result<(), Refusal>;
    fn push_body(&self) -> Vec<u8>;
    fn end_pull(&self, response: Response) -> Result<(), Refusal>;
    /// Reads a response, and ends a pull by it.
    fn end_pull_bytes(&self, body: &[u8]) -> Result<(), Refusal> {
        self.end_pull(wire::read_response(body)?)
    }
}

pub type Args = Arc<serde_json::value::RawValue>;

/// The rows that a poll told last.
pub type Rows<K> = Vec<(K, K)>;

/// Keeps the rows in place of those that were kept, where they are others, and says whether they are.
pub fn keep_others<'a, K: Clone + PartialEq + 'a, I: Iterator<Item = (&'a K, &'a K)>>(
    rows: impl Fn() -> I,
    kept: &mut Rows<K>,
) -> bool {
    let mut before = kept.iter();
    let are_there = rows().all(|(key, value)| before.next().is_some_and(|row| row.0 == *key && row.1 == *value));
    if are_there && before.next().is_none() {
        return false;
    }
    *kept = rows().map(|(key, value)| (key.clone(), value.clone())).collect();
    true
}
