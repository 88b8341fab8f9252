//! Threads that share nothing and count: what the machine alone does to a reader's pauses. Of its figures the pauses of
//! `readers` alone mean something.
use baselines::wire::Response;
use baselines::{Args, Group, Identity, Refusal, Rows, Text};
use std::hint::black_box;

/// As long as a get takes, by and large, and as a mutation does.
const GET: u64 = 500;
const MUTATION: u64 = 1_500;

fn spin(turns: u64) {
    let mut number = 1u64;
    for turn in 0..turns {
        number = black_box(number.wrapping_mul(3).wrapping_add(turn));
    }
    black_box(number);
}

struct Spins;

impl Group for Spins {
    const VARIANT: &'static str = "spins";
    type Kept = ();

    fn new(_: Identity) -> Spins {
        Spins
    }

    fn get(&self, _: &str, _: &mut Vec<u8>) {
        spin(GET);
    }

    fn get_each(&self, _: &[String], _: &mut Vec<u8>) {}

    fn scan(&self, _: &str, _: usize, _: &mut Vec<u8>) {}

    fn poll(&self, _: &str, _: &mut Rows<()>) -> bool {
        false
    }

    fn mutate(&self, _: &Text, _: u64, _: &Text, _: &Args, _: u64) -> Result<(), Refusal> {
        spin(MUTATION);
        Ok(())
    }

    fn push_body(&self) -> Vec<u8> {
        Vec::new()
    }

    fn end_pull(&self, _: Response) -> Result<(), Refusal> {
        Ok(())
    }
}

fn main() {
    baselines::jobs::main::<Spins>();
}
