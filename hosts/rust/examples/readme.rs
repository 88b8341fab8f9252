//! The README's example in Rust: two clients of one group, and a server that this file plays.

use giqaymu::{Ended, Group, Place, Refusal, Scan, Watch};

const ANNA: &str = "00000000-0000-4000-8000-00000000000a";
const BERT: &str = "00000000-0000-4000-8000-00000000000b";

fn show(what: &str, bytes: &[u8]) {
    println!("{what} {}", String::from_utf8_lossy(bytes));
}

/// A pull whose response is this one.
fn pull(place: &mut Place, response: &str) -> Result<(), Refusal> {
    let (ticket, request) = place.begin_pull()?;
    show("pull", request);
    match place.end_pull(ticket, response.as_bytes())? {
        Ended::Applied => println!("applied"),
        Ended::Same => println!("same"),
    }
    Ok(())
}

fn poll(place: &mut Place, watch: &Watch) -> Result<(), Refusal> {
    match place.poll(watch)? {
        Some(rows) => show("new", rows),
        None => println!("unchanged"),
    }
    Ok(())
}

fn main() -> Result<(), Refusal> {
    let group = Group {
        id: "00000000-0000-4000-8000-000000000001",
        profile: "p1",
        schema: "s1",
        rules: r#"{"add":[["put",["cat","todo/",["arg","id"]],["arg","text"]]]}"#,
        own_mutators: false,
        slots: 4096,
    };
    let [mut anna, mut bert] = group.open()?;
    anna.sit(ANNA)?;
    bert.sit(BERT)?;

    pull(&mut anna, r#"{"cookie":1,"lastMutationIDChanges":{},"patch":[{"op":"put","key":"n","value":5}]}"#)?;
    let watch = bert.watch(&Scan::of("todo/"))?;
    poll(&mut bert, &watch)?;

    println!("id {}", anna.mutate("incr", r#"["n",1]"#, 1_700_000_000_000)?);
    println!("id {}", bert.mutate("add", r#"{"id":"x","text":"milk"}"#, 1_700_000_000_001)?);
    show("n", bert.get("n")?.unwrap_or(b"none"));
    println!("{}", if anna.has("todo/x")? { "there" } else { "not there" });
    poll(&mut bert, &watch)?;
    poll(&mut bert, &watch)?;

    show("pending", anna.pending()?);
    show("push", anna.push()?);
    let response = format!(
        r#"{{"cookie":2,"lastMutationIDChanges":{{"{ANNA}":1,"{BERT}":1}},"patch":[{},{}]}}"#,
        r#"{"op":"put","key":"n","value":6}"#, r#"{"op":"put","key":"todo/x","value":"oat milk"}"#,
    );
    pull(&mut bert, &response)?;
    poll(&mut bert, &watch)?;
    show("pending", anna.pending()?);

    if let Err(Refusal::Refused(code)) = anna.mutate("incr", r#"["m",1]"#, 1_700_000_000_002) {
        println!("refused with code {code}");
    }
    anna.leave()
}
