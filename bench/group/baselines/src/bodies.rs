//! What the server would send, as the program of this bench has it.
use std::fmt::Write;

pub const COUNTERS: u64 = 1_000;

pub const CLIENT: &str = "00000000-0000-4000-8000-000000000000";

/// What spreads the numbers of clients over the bits of an ID.
const SPREAD: u128 = 0x9e37_79b9_7f4a_7c15_f39c_c060_5ced_c835;

/// The bits that each ID of the version 4 has alike, and what they are.
const ALIKE: u128 = 0xf000_c000_0000_0000_0000;
const VERSION_4: u128 = 0x4000_8000_0000_0000_0000;

/// The ID of the client with this number, where `CLIENT` is 0. They differ from their first digits on, as random ones do.
pub fn client_id(number: u64) -> String {
    let id = format!("{:032x}", (u128::from(number).wrapping_mul(SPREAD) & !ALIKE) | VERSION_4);
    [&id[..8], &id[8..12], &id[12..16], &id[16..20], &id[20..]].join("-")
}

pub fn item(number: u64) -> String {
    format!("item/{number:08}")
}

/// In which order the members of a value stand: by their bytes, or as a program made them.
#[derive(Clone, Copy)]
pub enum Members {
    Sorted,
    AsMade,
}

/// What a pull brings: items, and the counters where they are asked for.
#[derive(Clone, Copy)]
pub struct Puts {
    pub from: u64,
    pub count: u64,
    pub counters: bool,
    pub members: Members,
}

pub const NOTHING: Puts = Puts { from: 0, count: 0, counters: false, members: Members::Sorted };

impl Puts {
    pub fn of(from: u64, count: u64) -> Puts {
        Puts { from, count, ..NOTHING }
    }
}

fn put_item(out: &mut String, number: u64, members: Members) {
    write!(out, r#"{{"op":"put","key":"item/{number:08}","value":"#).unwrap();
    match members {
        Members::Sorted => write!(out, r#"{{"done":false,"order":{number},"text":"buy some milk"}}}}"#).unwrap(),
        Members::AsMade => write!(out, r#"{{"text":"buy some milk","done":false,"order":{number}}}}}"#).unwrap(),
    }
}

/// The response with this cookie that confirms the client's mutations up to an ID.
pub fn body(cookie: u64, id: u64, puts: Puts) -> Vec<u8> {
    let mut out = format!(r#"{{"cookie":{cookie},"lastMutationIDChanges":{{"{CLIENT}":{id}}},"patch":["#);
    if puts.counters {
        for number in 0..COUNTERS {
            write!(out, r#"{{"op":"put","key":"ctr/{number:04}","value":0}},"#).unwrap();
        }
    }
    for number in puts.from..puts.from + puts.count {
        if number > puts.from {
            out.push(',');
        }
        put_item(&mut out, number, puts.members);
    }
    out.push_str("]}");
    out.into_bytes()
}
