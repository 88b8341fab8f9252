//! A place at a group, and its calls.

use crate::edge::{Given, Handle, Told, What};
use crate::own::{Draft, Ran, Run, run_all};
use crate::refusal::Refusal;
use crate::scan::{Scan, Start};
use std::sync::atomic::{AtomicU64, Ordering};

/// A place at a group, at which a client sits down, makes its calls and leaves. Dropped, it is closed, with the client
/// that sits there; what the client made stays pending in the group.
///
/// The bytes that it lends are good until its next call. Values, rows, pending mutations and cookies are compact JSON
/// texts.
///
/// A refused call changed nothing, but that [`Refusal::StateNotFound`] closes the group. Each call may be refused with
/// `NoMemory`, each but `sit` with `NoClient`, and, where calls of other places are in its way 1,000,000 times, with
/// `Moved`, `Busy` or `Gone`. What else a call may be refused with, it says.
#[derive(Debug)]
pub struct Place {
    handle: Handle,
    /// The number of the client that sat down last, which no other one in this process has: its tickets and watches
    /// bear it, so that those of another client are told apart.
    client: u64,
    /// The moment of its last query.
    read_at: u64,
}

/// How many clients sat down.
static CLIENTS: AtomicU64 = AtomicU64::new(0);

/// A pull that a client began and has not ended.
#[derive(Debug, PartialEq, Eq)]
#[must_use = "a ticket is kept at its place until the pull ends, or the ticket is forgotten, or the client leaves"]
pub struct Ticket {
    client: u64,
    number: u32,
}

/// A watch of rows, which its client polls until it gives it up, or leaves.
#[derive(Debug, PartialEq, Eq)]
pub struct Watch {
    client: u64,
    number: u32,
}

/// How a pull ended.
#[derive(Clone, Copy, Debug, PartialEq, Eq)]
pub enum Ended {
    /// What the server confirmed is pending no more, and the rest was run again on the server's map.
    Applied,
    /// The response brought nothing.
    Same,
}

/// `GIQ_NONE`, `GIQ_YES` and `GIQ_ASKED`.
const NONE: i32 = 1;
const YES: i32 = 2;
pub(crate) const ASKED: i32 = 3;
/// `GIQ_NO_LIMIT`.
const NO_LIMIT: u64 = u64::MAX;

/// The number that the library gave a ticket or a watch. No place has 2^32 of them.
fn short(number: u64) -> u32 {
    u32::try_from(number).expect("a number of a ticket or of a watch")
}

/// A text of the library.
pub(crate) fn text(bytes: &[u8]) -> String {
    String::from_utf8_lossy(bytes).into_owned()
}

pub(crate) fn given_scan<'a>(scan: &Scan<'a>) -> Given<'a> {
    let (kind, start) = match scan.start {
        Start::Any => (0, ""),
        Start::At(key) => (1, key),
        Start::After(key) => (2, key),
    };
    Given { m: kind, n: scan.limit.unwrap_or(NO_LIMIT), a: scan.prefix.as_bytes(), b: start.as_bytes() }
}

impl Place {
    pub(crate) fn new(handle: Handle) -> Place {
        Place { handle, client: 0, read_at: 0 }
    }

    pub(crate) fn call(&mut self, what: What, given: Given<'_>) -> Result<Told<'_>, Refusal> {
        let told = self.handle.call(what, given);
        if told.returned < 0 {
            return Err(Refusal::of(told.returned, told.code));
        }
        if what.is_query() {
            self.read_at = told.number;
        }
        Ok(told)
    }

    /// A client of this ID, a UUID, sits down. Its last id is the one that the group has, 0 where it has none. Refused
    /// with `BadUuid` and `InUse`.
    pub fn sit(&mut self, client: &str) -> Result<(), Refusal> {
        let a = client.as_bytes();
        self.call(What::Sit, Given { a, ..Given::default() })?;
        self.client = CLIENTS.fetch_add(1, Ordering::Relaxed) + 1;
        Ok(())
    }

    /// The client leaves; its tickets and watches are given up, and a reading that was forgotten; what it made stays
    /// pending.
    pub fn leave(&mut self) -> Result<(), Refusal> {
        self.call(What::Leave, Given::default())?;
        Ok(())
    }

    pub(crate) fn value(&mut self, what: What, key: &str) -> Result<Option<&[u8]>, Refusal> {
        let a = key.as_bytes();
        let told = self.call(what, Given { a, ..Given::default() })?;
        Ok((told.returned != NONE).then_some(told.bytes))
    }

    pub(crate) fn is(&mut self, what: What, key: &str) -> Result<bool, Refusal> {
        let a = key.as_bytes();
        Ok(self.call(what, Given { a, ..Given::default() })?.returned == YES)
    }

    /// The value at the key.
    pub fn get(&mut self, key: &str) -> Result<Option<&[u8]>, Refusal> {
        self.value(What::Get, key)
    }

    /// Whether the key is there.
    pub fn has(&mut self, key: &str) -> Result<bool, Refusal> {
        self.is(What::Has, key)
    }

    /// The rows, an array of `[key,value]`, in the order of their keys' bytes.
    pub fn scan(&mut self, scan: &Scan<'_>) -> Result<&[u8], Refusal> {
        Ok(self.call(What::Scan, given_scan(scan))?.bytes)
    }

    /// The pending mutations of the group, whichever client made them, the oldest first: an array of
    /// `[client,id,name]`.
    pub fn pending(&mut self) -> Result<&[u8], Refusal> {
        Ok(self.call(What::Pending, Given::default())?.bytes)
    }

    /// The group's cookie; null before the first pull was applied.
    pub fn cookie(&mut self) -> Result<&[u8], Refusal> {
        Ok(self.call(What::Cookie, Given::default())?.bytes)
    }

    /// Whether the group is closed, since the server does not know it.
    pub fn closed(&mut self) -> Result<bool, Refusal> {
        Ok(self.call(What::Closed, Given::default())?.returned == YES)
    }

    /// The value at the key in what the server last sent, without what is pending.
    pub fn pulled_get(&mut self, key: &str) -> Result<Option<&[u8]>, Refusal> {
        self.value(What::PulledGet, key)
    }

    /// The rows of what the server last sent, without what is pending, as [`Place::scan`] has them.
    pub fn pulled_scan(&mut self, scan: &Scan<'_>) -> Result<&[u8], Refusal> {
        Ok(self.call(What::PulledScan, given_scan(scan))?.bytes)
    }

    /// The number of the group's moment. The same number, also at another place of the group, says the same map,
    /// pending mutations and cookie; a later state has a greater number. It is one load, and takes no memory: a program
    /// that asks before it reads pays little where nothing is new.
    pub fn moment(&mut self) -> Result<u64, Refusal> {
        Ok(self.call(What::Moment, Given::default())?.number)
    }

    /// The moment at which this place's last query was answered, as [`Place::moment`] counts them; 0 before the first.
    /// It was told with the answer, so no call is made.
    #[must_use]
    pub fn read_at(&self) -> u64 {
        self.read_at
    }

    /// How many slots are free, an array `[ordinary,all,retired]`: those that a change may take, those that a pull may
    /// take which leaves nothing pending, and those that were let go and not given since, of which a change takes each
    /// that no older reader holds. Each slot is looked at once, one after the other, so that others may take and let go
    /// meanwhile; it takes time for each slot of the group.
    pub fn slots(&mut self) -> Result<&[u8], Refusal> {
        Ok(self.call(What::Slots, Given::default())?.bytes)
    }

    /// Finds the client's last id in the group: the remedy for `Stale`.
    pub fn refresh(&mut self) -> Result<u64, Refusal> {
        Ok(self.call(What::Refresh, Given::default())?.number)
    }

    /// The body of a push of all that is pending in the group (version 1), also where nothing is. The answer of the
    /// push endpoint is not read by the library.
    pub fn push(&mut self) -> Result<&[u8], Refusal> {
        self.push_from(0)
    }

    /// The body of a push as [`Place::push`] has it, but for the oldest `skip` pending mutations; where no more are
    /// pending it has none. What is pending may be other by the time of the call than [`Place::pending`] told: look
    /// which mutation the body begins with, or ask a [`Reading`](crate::Reading) for both.
    pub fn push_from(&mut self, skip: u32) -> Result<&[u8], Refusal> {
        Ok(self.call(What::Push, Given { m: skip, ..Given::default() })?.bytes)
    }

    /// Begins a pull: its ticket, and the body of its request (version 1). Many pulls may be under way.
    pub fn begin_pull(&mut self) -> Result<(Ticket, &[u8]), Refusal> {
        let client = self.client;
        let told = self.call(What::BeginPull, Given::default())?;
        Ok((Ticket { client, number: short(told.number) }, told.bytes))
    }

    fn number_of(&self, ticket: &Ticket) -> Result<u32, Refusal> {
        if ticket.client == self.client { Ok(ticket.number) } else { Err(Refusal::NoTicket) }
    }

    /// Gives up a pull to which no response came. Refused with `NoTicket` where another client began it.
    pub fn forget(&mut self, ticket: Ticket) -> Result<(), Refusal> {
        let m = self.number_of(&ticket)?;
        self.call(What::ForgetTicket, Given { m, ..Given::default() })?;
        Ok(())
    }

    /// Ends a pull with the response's body; its ticket is given up, whatever comes. Refused with `NotJson`,
    /// `BadShape`, `NotWhole`, `Overtaken`, `CookieWentBack`, `CookieNotNew`, `IdWentBack`, `StateNotFound`,
    /// `VersionNotSupported`, `Full`, `Stamps` and `Closed`; with `NoTicket` where another client began the pull; with
    /// `Asks` where a mutation that stays pending is one of the program's own mutators.
    pub fn end_pull(&mut self, ticket: Ticket, response: &[u8]) -> Result<Ended, Refusal> {
        self.end_pull_with(ticket, response, |_, _| Err(Refusal::Asks))
    }

    /// Ends a pull as [`Place::end_pull`] does, in a group with mutators of the program's own: `run` is called for each
    /// mutation of one that stays pending, the oldest first, and for all anew where others changed the group first. One
    /// whose run isn't done stays pending, and changes nothing. Where `run` answers a refusal or panics, the change is
    /// given up: nothing was changed.
    pub fn end_pull_with<F>(&mut self, ticket: Ticket, response: &[u8], run: F) -> Result<Ended, Refusal>
    where
        F: FnMut(&Run, &mut Draft<'_>) -> Result<Ran, Refusal>,
    {
        let (m, a) = (self.number_of(&ticket)?, response);
        let ended = self.change(What::EndPull, Given { m, a, ..Given::default() }, run);
        // It can be refused for memory at the most: then the ticket is given up when the client leaves.
        let _ = self.forget(ticket);
        ended.map(|(returned, _)| if returned == NONE { Ended::Same } else { Ended::Applied })
    }

    /// Runs a mutator on the map, and answers the mutation's id; queries show it at once. `args` is a JSON text of
    /// whole numbers that nests at most 124 deep, `time` is in milliseconds since 1970. Refused with `NotJson`,
    /// `NotWhole`, `NoMutator`, `Refused` with the mutator's code, `Stale`, `Full`, `Stamps` and `Closed`; with `Asks`
    /// where the mutator is one of the program's own.
    pub fn mutate(&mut self, name: &str, args: &str, time: u64) -> Result<u64, Refusal> {
        self.mutate_with(name, args, time, |_, _| Err(Refusal::Asks))
    }

    /// Makes a mutation as [`Place::mutate`] does, in a group with mutators of the program's own: `run` is the mutator
    /// where the group has no rule of the name, and is called anew where others changed the group first. Where it
    /// answers a refusal or panics, the change is given up: nothing was changed.
    pub fn mutate_with<F>(&mut self, name: &str, args: &str, time: u64, run: F) -> Result<u64, Refusal>
    where
        F: FnMut(&Run, &mut Draft<'_>) -> Result<Ran, Refusal>,
    {
        let (n, a, b) = (time, name.as_bytes(), args.as_bytes());
        Ok(self.change(What::Mutate, Given { m: 0, n, a, b }, run)?.1)
    }

    /// Makes a change, with the runs that it asks for: what it returned in the end, and its number.
    fn change<F>(&mut self, what: What, given: Given<'_>, run: F) -> Result<(i32, u64), Refusal>
    where
        F: FnMut(&Run, &mut Draft<'_>) -> Result<Ran, Refusal>,
    {
        let told = self.call(what, given)?;
        if told.returned == ASKED { run_all(self, run) } else { Ok((told.returned, told.number)) }
    }

    /// Watches rows. Nothing is read.
    pub fn watch(&mut self, scan: &Scan<'_>) -> Result<Watch, Refusal> {
        let client = self.client;
        let told = self.call(What::Watch, given_scan(scan))?;
        Ok(Watch { client, number: short(told.number) })
    }

    fn watched(&self, watch: &Watch) -> Result<u32, Refusal> {
        if watch.client == self.client { Ok(watch.number) } else { Err(Refusal::NoWatch) }
    }

    /// Gives a watch up, and the rows that it keeps. Refused with `NoWatch` where it is another client's.
    pub fn unwatch(&mut self, watch: Watch) -> Result<(), Refusal> {
        let m = self.watched(&watch)?;
        self.call(What::Unwatch, Given { m, ..Given::default() })?;
        Ok(())
    }

    /// The rows of a watch, as [`Place::scan`] has them: the first time, and whenever they differ from those told last.
    /// Refused with `NoWatch` where the watch is another client's.
    pub fn poll(&mut self, watch: &Watch) -> Result<Option<&[u8]>, Refusal> {
        let m = self.watched(watch)?;
        let told = self.call(What::Poll, Given { m, ..Given::default() })?;
        Ok((told.returned != NONE).then_some(told.bytes))
    }

    /// What changed in the rows of a watch since they were told last, by this or by [`Place::poll`]; none where nothing
    /// did. An array of objects in the order of their keys' bytes, each with `key` and an `op`: `add` with a
    /// `newValue`, `del` with an `oldValue`, `change` with both. The first time each row is added. Refused with
    /// `NoWatch` where the watch is another client's.
    pub fn poll_changes(&mut self, watch: &Watch) -> Result<Option<&[u8]>, Refusal> {
        let m = self.watched(watch)?;
        let told = self.call(What::PollChanges, Given { m, ..Given::default() })?;
        Ok((told.returned != NONE).then_some(told.bytes))
    }
}
