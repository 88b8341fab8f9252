//! Mutators of the program's own.

use giqaymu::{Draft, Ended, Group, Place, Ran, Reason, Refusal, Run, Scan};
use std::panic::{AssertUnwindSafe, catch_unwind};
use std::thread;

const ANNA: &str = "00000000-0000-4000-8000-00000000000a";
const BERT: &str = "00000000-0000-4000-8000-00000000000b";
const GROUP: Group<'_> = Group {
    id: "00000000-0000-4000-8000-000000000001",
    profile: "p1",
    schema: "s1",
    rules: "",
    own_mutators: true,
    slots: 16_384,
};

fn seated() -> [Place; 2] {
    seated_at(GROUP)
}

fn seated_at(group: Group<'_>) -> [Place; 2] {
    let mut places = group.open().expect("a group");
    let [anna, bert] = &mut places;
    anna.sit(ANNA).expect("a client");
    bert.sit(BERT).expect("a client");
    places
}

fn text(bytes: &[u8]) -> &str {
    std::str::from_utf8(bytes).expect("UTF-8")
}

/// `note` puts its arguments and reason at its name, `take` deletes its key, which has to be there.
fn mutators(run: &Run, draft: &mut Draft<'_>) -> Result<Ran, Refusal> {
    match run.name.as_str() {
        "note" => {
            let reason = if run.reason == Reason::Initial { "new" } else { "rebased" };
            draft.put("note", &format!(r#"[{},"{reason}"]"#, run.args))?;
            Ok(Ran::Done)
        }
        "take" => {
            let key = run.args.trim_matches('"');
            if !draft.has(key)? {
                return Ok(Ran::Refused(7));
            }
            draft.del(key)?;
            Ok(Ran::Done)
        }
        _ => Ok(Ran::Unknown),
    }
}

#[test]
fn mutations() -> Result<(), Refusal> {
    let [mut anna, mut bert] = seated();
    assert_eq!(anna.mutate_with("note", "[ 1 ]", 5, mutators)?, 1);
    assert_eq!(bert.get("note")?.map(text), Some(r#"[[1],"new"]"#));
    assert_eq!(bert.mutate_with("take", r#""x""#, 5, mutators), Err(Refusal::Refused(7)));
    assert_eq!(bert.mutate_with("set", "1", 5, mutators), Err(Refusal::NoMutator));
    assert_eq!(bert.mutate_with("take", r#""note""#, 5, mutators)?, 1);
    assert!(!anna.has("note")?);
    assert_eq!(anna.mutate("note", "1", 5), Err(Refusal::Asks));
    assert_eq!(anna.refresh()?, 1);
    Ok(())
}

#[test]
fn a_rebase_runs_what_stays_pending() -> Result<(), Refusal> {
    let [mut anna, mut bert] = seated();
    anna.mutate_with("note", "1", 5, mutators)?;
    bert.mutate_with("take", r#""note""#, 5, mutators)?;
    anna.mutate_with("note", "2", 5, mutators)?;
    let (ticket, _) = anna.begin_pull()?;
    let response = format!(r#"{{"cookie":1,"lastMutationIDChanges":{{"{ANNA}":1}},"patch":[]}}"#);
    let mut runs = Vec::new();
    let ended = anna.end_pull_with(ticket, response.as_bytes(), |run, draft| {
        runs.push((run.name.clone(), run.reason));
        mutators(run, draft)
    })?;
    assert_eq!(ended, Ended::Applied);
    assert_eq!(runs, [("take".to_owned(), Reason::Rebase), ("note".to_owned(), Reason::Rebase)]);
    assert_eq!(text(bert.scan(&Scan::default())?), r#"[["note",[2,"rebased"]]]"#);
    assert_eq!(text(bert.pending()?), format!(r#"[["{BERT}",1,"take"],["{ANNA}",2,"note"]]"#));
    let (ticket, _) = anna.begin_pull()?;
    assert_eq!(anna.end_pull(ticket, br#"{"cookie":2,"lastMutationIDChanges":{},"patch":[]}"#), Err(Refusal::Asks));
    let (ticket, _) = anna.begin_pull()?;
    assert_eq!(anna.end_pull(ticket, br#"{"cookie":1,"lastMutationIDChanges":{},"patch":[]}"#)?, Ended::Same);
    Ok(())
}

#[test]
fn a_run_is_told_in_one() -> Result<(), Refusal> {
    let [mut anna, mut bert] = seated();
    let told = |run: &Run, draft: &mut Draft<'_>| -> Result<String, Refusal> {
        let told = text(draft.asked_run()?).to_owned();
        mutators(run, draft)?;
        Ok(told)
    };
    let mut runs = Vec::new();
    anna.mutate_with("note", r#"{"é": [1]}"#, 7, |run, draft| {
        runs.push(told(run, draft)?);
        Ok(Ran::Done)
    })?;
    let (ticket, _) = bert.begin_pull()?;
    bert.end_pull_with(ticket, br#"{"cookie":1,"lastMutationIDChanges":{},"patch":[]}"#, |run, draft| {
        runs.push(told(run, draft)?);
        Ok(Ran::Done)
    })?;
    let run = format!(r#"{{"args":{{"é":[1]}},"clientID":"{ANNA}","id":1,"name":"note","timestamp":7}}"#);
    assert_eq!(runs, [run.clone(), run]);
    Ok(())
}

#[test]
fn writes_come_together() -> Result<(), Refusal> {
    let [mut anna, _bert] = seated();
    anna.mutate_with("note", "1", 5, |_, draft| {
        draft.put("c", "1")?;
        draft.write(
            r#"[{"op":"put","key":"a","value":[ 1 ]},{"op":"put","key":"b","value":2},{"op":"del","key":"c"}]"#,
        )?;
        for (writes, refusal) in [
            ("[", Refusal::NotJson),
            (r#"[{"op":"del","key":"a"},{"op":"clear"}]"#, Refusal::BadShape),
            (r#"[{"op":"del","key":"a"},{"op":"put","key":"b","value":0.5}]"#, Refusal::NotWhole),
        ] {
            assert_eq!(draft.write(writes), Err(refusal));
        }
        Ok(Ran::Done)
    })?;
    assert_eq!(text(anna.scan(&Scan::default())?), r#"[["a",[1]],["b",2]]"#);
    Ok(())
}

#[test]
fn others_are_first() -> Result<(), Refusal> {
    let [mut anna, mut bert] = seated();
    let mut runs = 0;
    let id = anna.mutate_with("note", "1", 5, |run, draft| {
        runs += 1;
        if runs == 1 {
            bert.mutate_with("note", "2", 5, mutators)?;
        }
        assert_eq!(draft.get("note")?.map(text), (runs == 2).then_some(r#"[2,"new"]"#));
        mutators(run, draft)
    })?;
    assert_eq!((id, runs), (1, 2));
    assert_eq!(bert.get("note")?.map(text), Some(r#"[1,"new"]"#));
    Ok(())
}

#[test]
fn a_change_is_given_up() -> Result<(), Refusal> {
    let [mut anna, _bert] = seated();
    let refused = anna.mutate_with("note", "1", 5, |_, draft| {
        draft.put("note", "0")?;
        draft.put("note", "[").map(|()| Ran::Done)
    });
    assert_eq!(refused, Err(Refusal::NotJson));
    let panicked = catch_unwind(AssertUnwindSafe(|| anna.mutate_with("note", "1", 5, |_, _| panic!("a mutator"))));
    assert!(panicked.is_err());
    assert_eq!(anna.get("note")?, None);
    assert_eq!(anna.mutate_with("note", "1", 5, mutators)?, 1);
    Ok(())
}

#[test]
fn no_mutation_is_lost() -> Result<(), Refusal> {
    let places = GROUP.open_places(4)?;
    let threads: Vec<_> = places
        .into_iter()
        .enumerate()
        .map(|(number, mut place)| {
            thread::spawn(move || {
                place.sit(&format!("00000000-0000-4000-8000-00000000010{number}"))?;
                for id in 1..=500 {
                    let made = place.mutate_with("count", "1", 5, |_, draft| {
                        let count: u64 = draft.get("n")?.map_or(0, |n| text(n).parse().expect("a number"));
                        draft.put("n", &(count + 1).to_string())?;
                        Ok(Ran::Done)
                    })?;
                    assert_eq!(made, id);
                }
                Ok::<Place, Refusal>(place)
            })
        })
        .collect();
    let mut places = Vec::new();
    for thread in threads {
        places.push(thread.join().expect("a thread")?);
    }
    assert_eq!(places[0].get("n")?.map(text), Some("2000"));
    Ok(())
}

/// The group runs its rule itself, also in a pull, and asks for the names that have none, those of scripts too.
#[test]
fn rules_beside_own_mutators() -> Result<(), Refusal> {
    let rules = r#"{"add":[["put","r",["add",["or",["get","r"],0],1]]]}"#;
    let [mut anna, mut bert] = seated_at(Group { rules, ..GROUP });
    assert_eq!(anna.mutate("add", "null", 5)?, 1);
    assert_eq!(bert.mutate("set", r#"["s",1]"#, 5), Err(Refusal::Asks));
    assert_eq!(bert.mutate_with("note", "7", 5, mutators)?, 1);
    assert_eq!(anna.mutate("add", "null", 5)?, 2);
    let (ticket, _) = anna.begin_pull()?;
    let mut runs = Vec::new();
    let response = br#"{"cookie":1,"lastMutationIDChanges":{},"patch":[{"op":"put","key":"r","value":10}]}"#;
    let ended = anna.end_pull_with(ticket, response, |run, draft| {
        runs.push((run.name.clone(), draft.get("r")?.map(text).map(str::to_owned)));
        mutators(run, draft)
    })?;
    assert_eq!((ended, runs), (Ended::Applied, vec![("note".to_owned(), Some("11".to_owned()))]));
    assert_eq!(text(bert.scan(&Scan::default())?), r#"[["note",[7,"rebased"]],["r",12]]"#);
    Ok(())
}

#[test]
fn opening() {
    let refused = |group: Group<'_>| group.open_places(1).err().map(Refusal::from);
    assert_eq!(refused(Group { rules: "{", ..GROUP }), Some(Refusal::BadRules));
    assert_eq!(refused(Group { slots: 15, ..GROUP }), Some(Refusal::OutOfRange));
}
