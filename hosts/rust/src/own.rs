//! Mutators of the program's own: a change asks for each run of one.

use crate::edge::{Given, What};
use crate::place::{Place, given_scan, text};
use crate::refusal::Refusal;
use crate::scan::Scan;

/// For which reason a mutator is run.
#[derive(Clone, Copy, Debug, PartialEq, Eq)]
pub enum Reason {
    /// The client makes the mutation.
    Initial,
    /// A pull was applied under the mutation, which is replayed on what was pulled.
    Rebase,
}

/// A run of a mutator that a change asks for.
///
/// What it does has to depend on name, arguments, reason and the draft alone, since every rebase runs it again: that is
/// trusted.
#[derive(Clone, Debug, PartialEq, Eq)]
pub struct Run {
    /// The mutator's name.
    pub name: String,
    /// Its arguments, a compact JSON text.
    pub args: String,
    /// Why it is run.
    pub reason: Reason,
}

/// How a run ended.
#[derive(Clone, Copy, Debug, PartialEq, Eq)]
pub enum Ran {
    /// The draft has what the mutator wrote.
    Done,
    /// The mutator refused, with this code.
    Refused(u32),
    /// There is no mutator of the name.
    Unknown,
}

impl Ran {
    /// An `enum giq_ending`, and a code.
    fn numbers(self) -> (u32, u64) {
        match self {
            Ran::Done => (0, 0),
            Ran::Refused(code) => (1, u64::from(code)),
            Ran::Unknown => (2, 0),
        }
    }
}

/// The map that a run reads and writes. A refused call leaves it as it was, but for [`Draft::write`]; then the run may
/// go on.
#[derive(Debug)]
pub struct Draft<'a> {
    place: &'a mut Place,
}

impl Draft<'_> {
    /// All of the run in one: its mutation as a push lists it, a JSON object with `args`, `clientID`, `id`, `name` and
    /// `timestamp`. Client, id and time are told for the program's own logs: what a run does may not depend on them.
    pub fn asked_run(&mut self) -> Result<&[u8], Refusal> {
        Ok(self.place.call(What::AskedRun, Given::default())?.bytes)
    }

    /// The value at the key, a compact JSON text.
    pub fn get(&mut self, key: &str) -> Result<Option<&[u8]>, Refusal> {
        self.place.value(What::DraftGet, key)
    }

    /// Whether the key is there.
    pub fn has(&mut self, key: &str) -> Result<bool, Refusal> {
        self.place.is(What::DraftHas, key)
    }

    /// The rows, an array of `[key,value]`, in the order of their keys' bytes.
    pub fn scan(&mut self, scan: &Scan<'_>) -> Result<&[u8], Refusal> {
        Ok(self.place.call(What::DraftScan, given_scan(scan))?.bytes)
    }

    /// Puts a value, a JSON text of whole numbers, at the key. Refused with `NotJson` and `NotWhole`.
    pub fn put(&mut self, key: &str, value: &str) -> Result<(), Refusal> {
        let (a, b) = (key.as_bytes(), value.as_bytes());
        self.place.call(What::DraftPut, Given { a, b, ..Given::default() })?;
        Ok(())
    }

    /// Takes the key out, whether or not it was there.
    pub fn del(&mut self, key: &str) -> Result<(), Refusal> {
        let a = key.as_bytes();
        self.place.call(What::DraftDel, Given { a, ..Given::default() })?;
        Ok(())
    }

    /// Puts values and takes keys out: a JSON array of operations as in the patch of a pull, `put` with `key` and
    /// `value`, and `del` with `key`, in their order. Refused with `NotJson`, `BadShape` and `NotWhole`, and then none
    /// is done; with `NoMemory`, `Busy` and `Gone`, and then the first ones may be done.
    pub fn write(&mut self, writes: &str) -> Result<(), Refusal> {
        let a = writes.as_bytes();
        self.place.call(What::DraftWrites, Given { a, ..Given::default() })?;
        Ok(())
    }
}

/// A change that asks for a run. Dropped, it is given up: so also where a mutator panics.
struct Asking<'a> {
    draft: Draft<'a>,
}

impl Asking<'_> {
    fn run(&mut self) -> Result<Run, Refusal> {
        let named = self.draft.place.call(What::AskedName, Given::default())?;
        let reason = if named.number == 0 { Reason::Initial } else { Reason::Rebase };
        let name = text(named.bytes);
        let args = text(self.draft.place.call(What::AskedArgs, Given::default())?.bytes);
        Ok(Run { name, args, reason })
    }
}

impl Drop for Asking<'_> {
    fn drop(&mut self) {
        // It is refused where the change has ended.
        let _ = self.draft.place.call(What::GiveUp, Given::default());
    }
}

/// Runs what the change of this place asks for, until it has ended: what it returned then, and its number.
pub(crate) fn run_all<F>(place: &mut Place, mut run: F) -> Result<(i32, u64), Refusal>
where
    F: FnMut(&Run, &mut Draft<'_>) -> Result<Ran, Refusal>,
{
    let mut asking = Asking { draft: Draft { place } };
    loop {
        let asked = asking.run()?;
        let (m, n) = run(&asked, &mut asking.draft)?.numbers();
        let told = asking.draft.place.call(What::Ran, Given { m, n, ..Given::default() })?;
        if told.returned != crate::place::ASKED {
            return Ok((told.returned, told.number));
        }
    }
}
