//! Each call, and each refusal that a call of this crate can be brought to.

use giqaymu::{Ended, Group, OpenError, Place, Refusal, Scan, Start, VersionKind};

const ID: &str = "00000000-0000-4000-8000-000000000001";
const ANNA: &str = "00000000-0000-4000-8000-00000000000a";
const BERT: &str = "00000000-0000-4000-8000-00000000000b";
const GROUP: Group<'_> = Group {
    id: ID,
    profile: "p1",
    schema: "s1",
    rules: r#"{"need":[["need",["has",["arg",0]],77]]}"#,
    own_mutators: false,
    slots: 1024,
};

fn seated() -> [Place; 2] {
    let mut places = GROUP.open().expect("a group");
    for (place, client) in places.iter_mut().zip([ANNA, BERT]) {
        place.sit(client).expect("a client");
    }
    places
}

fn pull(place: &mut Place, response: &str) -> Result<Ended, Refusal> {
    let (ticket, _) = place.begin_pull()?;
    place.end_pull(ticket, response.as_bytes())
}

/// A response with this cookie, these confirmed ids and this patch.
fn response(cookie: &str, ids: &str, patch: &str) -> String {
    format!(r#"{{"cookie":{cookie},"lastMutationIDChanges":{{{ids}}},"patch":[{patch}]}}"#)
}

/// An operation of a patch.
fn put(key: &str, value: &str) -> String {
    format!(r#"{{"op":"put","key":"{key}","value":{value}}}"#)
}

fn text(bytes: &[u8]) -> &str {
    std::str::from_utf8(bytes).expect("UTF-8")
}

#[test]
fn queries() -> Result<(), Refusal> {
    let [mut anna, mut bert] = seated();
    assert_eq!(text(anna.cookie()?), "null");
    let rows = [put("a/1", "1"), put("a/2", r#""é""#), put("b", "null")].join(",");
    assert_eq!(pull(&mut anna, &response(r#"{"order":1}"#, "", &rows))?, Ended::Applied);
    assert_eq!(text(bert.cookie()?), r#"{"order":1}"#);
    assert_eq!(bert.get("a/2")?.map(text), Some(r#""é""#));
    assert_eq!(bert.get("a")?, None);
    assert!(bert.has("b")?);
    assert!(!bert.has("")?);
    assert!(!bert.closed()?);
    assert_eq!(text(bert.scan(&Scan::default())?), r#"[["a/1",1],["a/2","é"],["b",null]]"#);
    assert_eq!(text(bert.scan(&Scan::of("a/"))?), r#"[["a/1",1],["a/2","é"]]"#);
    let start = Start::At("a/2");
    assert_eq!(text(bert.scan(&Scan { start, ..Scan::default() })?), r#"[["a/2","é"],["b",null]]"#);
    let start = Start::After("a/1");
    assert_eq!(text(bert.scan(&Scan { prefix: "", start, limit: Some(1) })?), r#"[["a/2","é"]]"#);
    assert_eq!(text(bert.scan(&Scan { limit: Some(0), ..Scan::default() })?), "[]");
    Ok(())
}

#[test]
fn changes() -> Result<(), Refusal> {
    let [mut anna, mut bert] = seated();
    assert_eq!(anna.mutate("set", r#"["n", 1]"#, 5)?, 1);
    assert_eq!(bert.mutate("incr", r#"["n",2]"#, 6)?, 1);
    assert_eq!(anna.mutate("append", r#"["t","x"]"#, 7)?, 2);
    assert_eq!(anna.get("n")?.map(text), Some("3"));
    let pending = format!(r#"[["{ANNA}",1,"set"],["{BERT}",1,"incr"],["{ANNA}",2,"append"]]"#);
    assert_eq!(text(bert.pending()?), pending);
    let mutations = format!(
        r#"{{"args":["n",1],"clientID":"{ANNA}","id":1,"name":"set","timestamp":5}},{},{}"#,
        format_args!(r#"{{"args":["n",2],"clientID":"{BERT}","id":1,"name":"incr","timestamp":6}}"#),
        format_args!(r#"{{"args":["t","x"],"clientID":"{ANNA}","id":2,"name":"append","timestamp":7}}"#),
    );
    let body = format!(
        r#"{{"clientGroupID":"{ID}","mutations":[{mutations}],"profileID":"p1","pushVersion":1,"schemaVersion":"s1"}}"#
    );
    assert_eq!(text(bert.push()?), body);
    let rest = body.replace(&mutations, mutations.split_once("},").expect("two").1);
    assert_eq!(text(bert.push_from(1)?), rest);
    assert_eq!(text(bert.push_from(u32::MAX)?), body.replace(&mutations, ""));
    let confirmed = response("1", &format!(r#""{ANNA}":1,"{BERT}":1"#), &put("n", "30"));
    assert_eq!(pull(&mut bert, &confirmed)?, Ended::Applied);
    assert_eq!(pull(&mut bert, &response("1", "", ""))?, Ended::Same);
    assert_eq!(text(anna.pending()?), format!(r#"[["{ANNA}",2,"append"]]"#));
    assert_eq!(text(anna.scan(&Scan::default())?), r#"[["n",30],["t","x"]]"#);
    assert_eq!(anna.refresh()?, 2);
    Ok(())
}

#[test]
fn readings() -> Result<(), Refusal> {
    let [mut anna, mut bert] = seated();
    pull(&mut anna, &response("1", "", &[put("a", "1"), put("b", "1")].join(",")))?;
    anna.mutate("set", r#"["a",2]"#, 5)?;
    let rows = text(bert.scan(&Scan::default())?).to_owned();
    let body = text(bert.push()?).to_owned();
    let moment = bert.moment()?;
    let mut reading = anna.begin_read()?;
    bert.mutate("set", r#"["c",1]"#, 5)?;
    pull(&mut bert, &response("2", &format!(r#""{ANNA}":1"#), &put("a", "3")))?;
    assert_eq!(text(reading.scan(&Scan::default())?), rows);
    assert_eq!(reading.moment()?, moment);
    assert_eq!(reading.get("a")?.map(text), Some("2"));
    assert_eq!(reading.read_at(), moment);
    assert_eq!((reading.has("c")?, reading.closed()?), (false, false));
    assert_eq!(text(reading.pulled_scan(&Scan::of("a"))?), r#"[["a",1]]"#);
    assert_eq!(reading.pulled_get("b")?.map(text), Some("1"));
    assert_eq!(text(reading.pending()?), format!(r#"[["{ANNA}",1,"set"]]"#));
    assert_eq!(text(reading.cookie()?), "1");
    assert_eq!(text(reading.push()?), body);
    assert!(text(reading.push_from(1)?).contains(r#""mutations":[]"#));
    drop(reading);
    assert_eq!(anna.get("a")?.map(text), Some("3"));
    assert!(anna.has("c")? && anna.moment()? > moment);
    std::mem::forget(anna.begin_read()?);
    assert_eq!(anna.begin_read().err(), Some(Refusal::Reads));
    assert_eq!(anna.mutate("set", r#"["a",2]"#, 5), Err(Refusal::Reads));
    anna.leave()?;
    assert_eq!(anna.begin_read().err(), Some(Refusal::NoClient));
    Ok(())
}

#[test]
fn moments() -> Result<(), Refusal> {
    let [mut anna, mut bert] = seated();
    let first = anna.moment()?;
    assert_eq!(bert.moment()?, first);
    assert_eq!(anna.mutate("need", r#"["a"]"#, 0), Err(Refusal::Refused(77)));
    assert_eq!(anna.moment()?, first);
    anna.mutate("set", r#"["a",1]"#, 0)?;
    let second = bert.moment()?;
    assert!(second > first);
    pull(&mut anna, &response("1", &format!(r#""{ANNA}":1"#), &put("a", "1")))?;
    let third = bert.moment()?;
    assert!(third > second);
    assert_eq!(pull(&mut anna, &response("1", "", ""))?, Ended::Same);
    assert_eq!(bert.moment()?, third);
    assert_eq!(bert.read_at(), 0);
    assert_eq!(bert.get("x")?, None);
    assert_eq!(bert.read_at(), third);
    anna.mutate("set", r#"["a",2]"#, 0)?;
    assert_eq!((bert.read_at(), anna.has("a")?), (third, true));
    let fourth = anna.read_at();
    assert!(fourth > third);
    assert_eq!(bert.refresh()?, 0);
    assert_eq!(bert.read_at(), third);
    assert_eq!(bert.pulled_get("a")?.map(text), Some("1"));
    assert_eq!(bert.read_at(), fourth);
    bert.leave()?;
    assert_eq!(bert.moment(), Err(Refusal::NoClient));
    Ok(())
}

#[test]
fn pulled() -> Result<(), Refusal> {
    let [mut anna, mut bert] = seated();
    pull(&mut anna, &response("1", "", &[put("a/1", "1"), put("a/2", r#""é""#), put("b", "null")].join(",")))?;
    bert.mutate("set", r#"["a/2",2]"#, 0)?;
    bert.mutate("set", r#"["c",3]"#, 0)?;
    assert_eq!(anna.get("a/2")?.map(text), Some("2"));
    assert_eq!(anna.pulled_get("a/2")?.map(text), Some(r#""é""#));
    assert_eq!(anna.pulled_get("c")?, None);
    assert_eq!(text(anna.pulled_scan(&Scan::default())?), r#"[["a/1",1],["a/2","é"],["b",null]]"#);
    let start = Start::After("a/1");
    assert_eq!(text(anna.pulled_scan(&Scan { prefix: "", start, limit: Some(1) })?), r#"[["a/2","é"]]"#);
    Ok(())
}

#[test]
fn slots() -> Result<(), Refusal> {
    let [mut anna, _] = seated();
    // A quarter is reserved, and the group's two nodes have slots.
    assert_eq!(text(anna.slots()?), "[766,1022,0]");
    Ok(())
}

#[test]
fn watches() -> Result<(), Refusal> {
    let [mut anna, mut bert] = seated();
    let (all, others) = (anna.watch(&Scan::default())?, anna.watch(&Scan::of("b"))?);
    assert_eq!(anna.poll(&all)?.map(text), Some("[]"));
    assert_eq!(anna.poll(&others)?.map(text), Some("[]"));
    bert.mutate("set", r#"["a",1]"#, 0)?;
    assert_eq!(anna.poll(&all)?.map(text), Some(r#"[["a",1]]"#));
    assert_eq!(anna.poll(&all)?, None);
    assert_eq!(anna.poll(&others)?, None);
    let of_bert = bert.watch(&Scan::of("a"))?;
    assert_eq!(bert.poll(&all), Err(Refusal::NoWatch));
    assert_eq!(anna.poll(&of_bert), Err(Refusal::NoWatch));
    assert_eq!(bert.poll(&of_bert)?.map(text), Some(r#"[["a",1]]"#));
    assert_eq!(bert.unwatch(all), Err(Refusal::NoWatch));
    anna.unwatch(others)?;
    // The number may be given again: it is that of the new watch.
    let again = anna.watch(&Scan::of("a"))?;
    assert_eq!(anna.poll(&again)?.map(text), Some(r#"[["a",1]]"#));
    bert.unwatch(of_bert)?;
    Ok(())
}

#[test]
fn watches_tell_changes() -> Result<(), Refusal> {
    let [mut anna, mut bert] = seated();
    bert.mutate("set", r#"["a",1]"#, 0)?;
    let watch = anna.watch(&Scan::default())?;
    assert_eq!(anna.poll_changes(&watch)?.map(text), Some(r#"[{"key":"a","newValue":1,"op":"add"}]"#));
    assert_eq!(anna.poll_changes(&watch)?, None);
    bert.mutate("set", r#"["a",null]"#, 0)?;
    bert.mutate("set", r#"["b",[]]"#, 0)?;
    assert_eq!(
        anna.poll_changes(&watch)?.map(text),
        Some(r#"[{"key":"a","newValue":null,"oldValue":1,"op":"change"},{"key":"b","newValue":[],"op":"add"}]"#)
    );
    assert_eq!(anna.poll(&watch)?, None);
    bert.mutate("del", r#"["a"]"#, 0)?;
    assert_eq!(anna.poll_changes(&watch)?.map(text), Some(r#"[{"key":"a","oldValue":null,"op":"del"}]"#));
    bert.mutate("del", r#"["b"]"#, 0)?;
    assert_eq!(anna.poll(&watch)?.map(text), Some("[]"));
    assert_eq!(anna.poll_changes(&watch)?, None);
    assert_eq!(bert.poll_changes(&watch), Err(Refusal::NoWatch));
    Ok(())
}

#[test]
fn refused_mutations() -> Result<(), Refusal> {
    let [mut anna, mut bert] = seated();
    assert_eq!(anna.mutate("nothing", "[]", 0), Err(Refusal::NoMutator));
    assert_eq!(anna.mutate("need", r#"["a"]"#, 0), Err(Refusal::Refused(77)));
    assert_eq!(anna.mutate("set", "[", 0), Err(Refusal::NotJson));
    assert_eq!(anna.mutate("set", "[0.5]", 0), Err(Refusal::NotWhole));
    bert.leave()?;
    bert.sit(ANNA)?;
    bert.mutate("set", r#"["a",1]"#, 0)?;
    assert_eq!(anna.mutate("set", r#"["a",2]"#, 0), Err(Refusal::Stale));
    assert_eq!(anna.refresh()?, 1);
    assert_eq!(anna.mutate("set", r#"["a",2]"#, 0)?, 2);
    Ok(())
}

#[test]
fn full() -> Result<(), Refusal> {
    let [mut anna] = Group { slots: 16, ..GROUP }.open()?;
    anna.sit(ANNA)?;
    for id in 1..=5 {
        assert_eq!(anna.mutate("set", r#"["a",1]"#, 0)?, id);
    }
    let refused = (0..20).find_map(|_| anna.mutate("set", r#"["b",1]"#, 0).err());
    assert_eq!(refused, Some(Refusal::Full));
    Ok(())
}

#[test]
fn refused_pulls() -> Result<(), Refusal> {
    let [mut anna, mut bert] = seated();
    let put = &put("n", "0");
    let (late, _) = bert.begin_pull()?;
    pull(&mut anna, &response("5", &format!(r#""{ANNA}":3"#), put))?;
    assert_eq!(bert.end_pull(late, response("6", "", put).as_bytes()), Err(Refusal::Overtaken));
    assert_eq!(pull(&mut anna, "{"), Err(Refusal::NotJson));
    assert_eq!(pull(&mut anna, "{}"), Err(Refusal::BadShape));
    assert_eq!(pull(&mut anna, &response("0.5", "", put)), Err(Refusal::NotWhole));
    assert_eq!(pull(&mut anna, &response("4", "", put)), Err(Refusal::CookieWentBack));
    assert_eq!(pull(&mut anna, &response("5", "", put)), Err(Refusal::CookieNotNew));
    assert_eq!(pull(&mut anna, &response("6", &format!(r#""{ANNA}":2"#), put)), Err(Refusal::IdWentBack));
    let wrong = r#"{"error":"VersionNotSupported","versionType":"schema"}"#;
    assert_eq!(pull(&mut anna, wrong), Err(Refusal::VersionNotSupported(VersionKind::Schema)));
    let (one, _) = anna.begin_pull()?;
    let (two, _) = anna.begin_pull()?;
    assert_ne!(one, two);
    anna.forget(two)?;
    let (of_bert, _) = bert.begin_pull()?;
    assert_eq!(bert.end_pull(one, response("6", "", put).as_bytes()), Err(Refusal::NoTicket));
    bert.forget(of_bert)?;
    assert_eq!(pull(&mut anna, r#"{"error":"ClientStateNotFound"}"#), Err(Refusal::StateNotFound));
    assert!(bert.closed()?);
    assert_eq!(bert.mutate("set", r#"["a",1]"#, 0), Err(Refusal::Closed));
    Ok(())
}

#[test]
fn sitting() -> Result<(), Refusal> {
    let [mut place] = GROUP.open()?;
    assert_eq!(place.get("a"), Err(Refusal::NoClient));
    assert_eq!(place.leave(), Err(Refusal::NoClient));
    assert_eq!(place.sit("anna"), Err(Refusal::BadUuid));
    place.sit(ANNA)?;
    assert_eq!(place.sit(BERT), Err(Refusal::InUse));
    let (ticket, _) = place.begin_pull()?;
    let watch = place.watch(&Scan::default())?;
    place.mutate("set", r#"["a",1]"#, 0)?;
    place.leave()?;
    place.sit(BERT)?;
    assert!(place.has("a")?);
    assert_eq!(place.end_pull(ticket, b"{}"), Err(Refusal::NoTicket));
    assert_eq!(place.poll(&watch), Err(Refusal::NoWatch));
    place.leave()?;
    assert_eq!(place.begin_pull().err(), Some(Refusal::NoClient));
    Ok(())
}

#[test]
fn opening() {
    let refused = |group: Group<'_>| group.open_places(1).err().map(Refusal::from);
    assert_eq!(refused(Group { id: "1", ..GROUP }), Some(Refusal::BadUuid));
    assert_eq!(refused(Group { slots: 15, ..GROUP }), Some(Refusal::OutOfRange));
    let many = |count: usize| GROUP.open_places(count).map(|places| places.len()).map_err(Refusal::from);
    assert_eq!([many(0), many(257), many(256)], [Err(Refusal::OutOfRange), Err(Refusal::OutOfRange), Ok(256)]);
}

#[test]
fn faulty_rules() {
    let told = |rules: &str| Group { rules, ..GROUP }.open::<1>().expect_err("a fault");
    let fault = "/add/0/2: unknown word".to_owned();
    let rules = r#"{"add":[["put","k",["adds",1,2]]]}"#;
    assert_eq!(told(rules), OpenError { refusal: Refusal::BadRules, fault });
    assert_eq!(told(rules).to_string(), "the rules are faulty: /add/0/2: unknown word");
    let name = "é/".repeat(300);
    assert_eq!(told(&format!(r#"{{"{name}":1}}"#)).fault, format!("/{}: no list of steps", name.replace('/', "~1")));
    let beside = Group { rules, own_mutators: true, ..GROUP }.open::<1>().expect_err("a fault");
    assert_eq!(beside, told(rules));
}

#[test]
fn the_group_lives_as_long_as_its_last_place() -> Result<(), Refusal> {
    let [mut anna, mut bert] = seated();
    anna.mutate("set", r#"["a",1]"#, 0)?;
    drop(anna);
    assert_eq!(bert.get("a")?.map(text), Some("1"));
    Ok(())
}
