//! The refusals are those of the header, by their names and numbers.

use giqaymu::{Refusal, STACK, version};

const HEADER: &str = include_str!("../../../include/giqaymu.h");

/// `GIQ_NO_MEMORY = -1` and the like, as `NoMemory` and -1.
fn numbers() -> impl Iterator<Item = (String, i32)> {
    HEADER.lines().filter_map(|line| {
        let (name, number) = line.trim_start().strip_prefix("GIQ_")?.split_once(" = ")?;
        let number = number.split([',', ' ']).next()?.parse().ok()?;
        let words = name.split('_').map(|word| word[..1].to_owned() + &word[1..].to_lowercase());
        Some((words.collect(), number))
    })
}

#[test]
fn names_are_those_of_the_header() {
    let refusals: Vec<(String, i32)> = numbers().filter(|(_, number)| *number < 0).collect();
    assert_eq!(refusals.len(), 34);
    for (name, number) in refusals {
        let refusal = format!("{:?}", Refusal::of(number, 0));
        assert_eq!(refusal.split('(').next(), Some(name.as_str()), "{number}");
    }
    assert_eq!(Refusal::of(-21, 0), Refusal::Unknown(-21));
}

#[test]
fn the_stack_is_that_of_the_header() {
    assert!(HEADER.contains(&format!("#define GIQ_STACK {STACK}\n")));
}

#[test]
fn the_version_is_that_of_the_header_and_of_the_crate() {
    let version = version();
    let number = version.major * 10_000 + version.minor * 100 + version.patch;
    assert!(HEADER.contains(&format!("#define GIQ_VERSION {number}\n")));
    assert_eq!(version.to_string().split(' ').next(), Some(env!("CARGO_PKG_VERSION")));
}
