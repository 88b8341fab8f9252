//! Responses and requests as JSON.
use crate::{Identity, Mutation, Refusal};
use serde::{Deserialize, Serialize};
use serde_json::value::RawValue;
use serde_json::Value;
use std::cmp::Ordering;
use std::collections::HashMap;

/// A cookie: a number, a text, or nothing. One with a field `order` is left out.
#[derive(Clone, Debug, Deserialize)]
#[serde(untagged)]
pub enum Cookie {
    Null,
    Number(f64),
    Text(String),
}

impl Cookie {
    pub fn order(&self, other: &Cookie) -> Ordering {
        match (self, other) {
            (Cookie::Number(a), Cookie::Number(b)) => a.total_cmp(b),
            (Cookie::Text(a), Cookie::Text(b)) => a.cmp(b),
            (a, b) => a.rank().cmp(&b.rank()),
        }
    }

    fn rank(&self) -> u8 {
        match self {
            Cookie::Null => 0,
            Cookie::Number(_) => 1,
            Cookie::Text(_) => 2,
        }
    }
}

#[derive(Deserialize)]
#[serde(rename_all = "lowercase")]
enum OpName {
    Put,
    Del,
    Clear,
}

#[derive(Deserialize)]
struct RawOp {
    op: OpName,
    key: Option<String>,
    value: Option<Value>,
}

#[derive(Deserialize)]
struct RawResponse {
    cookie: Cookie,
    #[serde(rename = "lastMutationIDChanges")]
    ids: HashMap<String, u64>,
    patch: Vec<RawOp>,
}

/// A change of the pulled map. A value is its compact text, with its members sorted, as `Value` has them.
pub enum Change {
    Put(String, String),
    Del(String),
    Clear,
}

pub struct Response {
    pub cookie: Cookie,
    pub ids: HashMap<String, u64>,
    pub patch: Vec<Change>,
}

fn change(raw: RawOp) -> Result<Change, Refusal> {
    match raw {
        RawOp { op: OpName::Put, key: Some(key), value: Some(value) } => Ok(Change::Put(key, value.to_string())),
        RawOp { op: OpName::Del, key: Some(key), .. } => Ok(Change::Del(key)),
        RawOp { op: OpName::Clear, .. } => Ok(Change::Clear),
        _ => Err(Refusal::BadShape),
    }
}

pub fn read_response(body: &[u8]) -> Result<Response, Refusal> {
    let raw: RawResponse = serde_json::from_slice(body).map_err(|_| Refusal::NotJson)?;
    let patch = raw.patch.into_iter().map(change).collect::<Result<_, _>>()?;
    Ok(Response { cookie: raw.cookie, ids: raw.ids, patch })
}

#[derive(Serialize)]
struct PushMutation<'a> {
    args: &'a RawValue,
    #[serde(rename = "clientID")]
    client: &'a str,
    id: u64,
    name: &'a str,
    timestamp: u64,
}

#[derive(Serialize)]
struct Push<'a> {
    #[serde(rename = "clientGroupID")]
    group: &'a str,
    mutations: Vec<PushMutation<'a>>,
    #[serde(rename = "profileID")]
    profile: &'a str,
    #[serde(rename = "pushVersion")]
    version: u32,
    #[serde(rename = "schemaVersion")]
    schema: &'a str,
}

pub fn push_body<'a>(identity: &Identity, pending: impl Iterator<Item = &'a Mutation>) -> Vec<u8> {
    let mutations = pending
        .map(|m| PushMutation {
            args: &m.args,
            client: &m.client,
            id: m.id,
            name: &m.name,
            timestamp: m.timestamp,
        })
        .collect();
    let push = Push {
        group: &identity.group,
        mutations,
        profile: &identity.profile,
        version: 1,
        schema: &identity.schema,
    };
    serde_json::to_vec(&push).expect("a push can be written")
}

/// Writes a row as a JSON array of its key and its value.
pub fn write_row(out: &mut Vec<u8>, key: &str, value: &str) {
    if out.len() > 1 {
        out.push(b',');
    }
    out.push(b'[');
    serde_json::to_writer(&mut *out, key).expect("a key can be written");
    out.push(b',');
    out.extend_from_slice(value.as_bytes());
    out.push(b']');
}
