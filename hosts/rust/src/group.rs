//! What a group is opened with.

use crate::edge::{Handle, rules_fault, version};
use crate::place::Place;
use crate::refusal::{OpenError, Refusal};

/// What a client group is opened with. The group lives in memory, starts empty, and is freed with the last of its
/// places.
#[derive(Clone, Copy, Debug)]
pub struct Group<'a> {
    /// The group's ID: a UUID, in any of its text forms (RFC 9562).
    pub id: &'a str,
    /// The profile ID of its requests.
    pub profile: &'a str,
    /// The schema version of its requests.
    pub schema: &'a str,
    /// Mutators as a JSON object (`docs/RULES.md`), which the group runs itself; empty: none.
    pub rules: &'a str,
    /// Whether a name that has no rule is a mutator of the program's own: changes of such are made by
    /// [`Place::mutate_with`] and [`Place::end_pull_with`]. Else it is a mutator of scripts.
    pub own_mutators: bool,
    /// 16 to 16,777,216, of 8 bytes each, and of 80 once they are used. A group never grows: `docs/USING.md` says how
    /// many to ask for.
    pub slots: u32,
}

impl Group<'_> {
    /// Opens the group with `N` places, 1 to 256. Refused with `BadVersion`, `BadUuid`, `BadRules`, `OutOfRange` (slots
    /// or places) and `NoMemory`.
    pub fn open<const N: usize>(&self) -> Result<[Place; N], OpenError> {
        Ok(as_many(self.open_places(N)?))
    }

    /// Opens the group with so many places. Refused as [`Group::open`].
    pub fn open_places(&self, count: usize) -> Result<Vec<Place>, OpenError> {
        if !version().is_called() {
            return Err(OpenError { refusal: Refusal::BadVersion, fault: String::new() });
        }
        let texts = [self.id, self.profile, self.schema, self.rules];
        match Handle::open(texts, self.slots, self.own_mutators, count) {
            Ok(handles) => Ok(handles.into_iter().map(Place::new).collect()),
            Err(returned) => Err(self.refused(Refusal::of(returned, 0))),
        }
    }

    fn refused(&self, refusal: Refusal) -> OpenError {
        let fault = if refusal == Refusal::BadRules { rules_fault(self.rules) } else { String::new() };
        OpenError { refusal, fault }
    }
}

/// The places, which are as many as were asked for.
fn as_many<const N: usize>(places: Vec<Place>) -> [Place; N] {
    match places.try_into() {
        Ok(places) => places,
        Err(_) => unreachable!("as many places as were asked for"),
    }
}
