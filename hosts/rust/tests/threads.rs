//! Places of one group, each on a thread of its own.

use giqaymu::{Group, Place, Refusal, STACK};
use std::thread;

const ID: &str = "00000000-0000-4000-8000-000000000001";
const THREADS: u32 = 4;
const MUTATIONS: u64 = 2000;

fn increments(place: &mut Place) -> Result<(), Refusal> {
    for id in 1..=MUTATIONS {
        assert_eq!(place.mutate("incr", r#"["n",1]"#, id)?, id);
    }
    Ok(())
}

/// Four threads mutate at once, each with a stack as small as a call needs, and no mutation is lost.
#[test]
fn no_mutation_is_lost() -> Result<(), Refusal> {
    let group = Group { id: ID, profile: "p1", schema: "s1", rules: "", own_mutators: false, slots: 65_536 };
    let mut places = group.open_places(THREADS as usize)?;
    for (number, place) in places.iter_mut().enumerate() {
        place.sit(&format!("00000000-0000-4000-8000-00000000010{number}"))?;
    }
    let (ticket, _) = places[0].begin_pull()?;
    let response = br#"{"cookie":1,"lastMutationIDChanges":{},"patch":[{"op":"put","key":"n","value":0}]}"#;
    places[0].end_pull(ticket, response)?;

    thread::scope(|scope| {
        for place in &mut places {
            let thread = thread::Builder::new().stack_size(STACK);
            thread.spawn_scoped(scope, || increments(place).expect("mutations")).expect("a thread");
        }
    });

    let sum = (u64::from(THREADS) * MUTATIONS).to_string();
    for place in &mut places {
        assert_eq!(place.get("n")?, Some(sum.as_bytes()));
        assert_eq!(place.refresh()?, MUTATIONS);
    }
    Ok(())
}

/// A place goes from one thread to another, which may close it.
#[test]
fn a_place_moves() -> Result<(), Refusal> {
    let group = Group { id: ID, profile: "", schema: "", rules: "", own_mutators: false, slots: 64 };
    let [mut anna, mut bert] = group.open()?;
    anna.sit("00000000-0000-4000-8000-00000000000a")?;
    bert.sit("00000000-0000-4000-8000-00000000000b")?;
    let moved = thread::spawn(move || bert.mutate("set", r#"["a",1]"#, 0));
    assert_eq!(moved.join().expect("a thread"), Ok(1));
    assert!(anna.has("a")?);
    Ok(())
}
