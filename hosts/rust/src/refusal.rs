//! Why a call was refused.

use std::error::Error;
use std::fmt;

/// Which version a server does not support.
#[derive(Clone, Copy, Debug, PartialEq, Eq, Hash)]
pub enum VersionKind {
    /// It didn't say.
    Unknown,
    /// That of pushes.
    Push,
    /// That of pulls.
    Pull,
    /// That of the schema.
    Schema,
}

impl VersionKind {
    fn of(code: u32) -> VersionKind {
        match code {
            1 => VersionKind::Push,
            2 => VersionKind::Pull,
            3 => VersionKind::Schema,
            _ => VersionKind::Unknown,
        }
    }
}

/// Why a call was refused; its message says what the caller can do.
#[derive(Clone, Copy, Debug, PartialEq, Eq, Hash)]
#[non_exhaustive]
pub enum Refusal {
    // by tools/refusals: variants of all
    /// Memory was refused.
    NoMemory,
    /// Other clients changed the group first, as often as the call tries.
    Moved,
    /// A slot or a pin was lost to other clients, as often as the call tries.
    Busy,
    /// A slot was given again while it was looked for.
    Gone,
    /// No slot is free for the change.
    Full,
    /// The group has too few stamps left.
    Stamps,
    /// The client's last id is not the one that the group has.
    Stale,
    /// No mutator has this name.
    NoMutator,
    /// The mutator refused, with the code.
    Refused(u32),
    /// The bytes are no JSON text, or one that nests too deep.
    NotJson,
    /// A field is missing, of a wrong type or out of range.
    BadShape,
    /// A number is not whole, or does not fit 64 bits.
    NotWhole,
    /// Another pull was applied since this one began.
    Overtaken,
    /// The response's cookie is below the group's.
    CookieWentBack,
    /// The cookie is as high as the group's, but the response brings something.
    CookieNotNew,
    /// The response confirms less of a client than was confirmed.
    IdWentBack,
    /// The server does not know the client group, which is closed by this.
    StateNotFound,
    /// The server does not support the version of this kind.
    VersionNotSupported(VersionKind),
    /// All seats are out.
    NoSeat,
    /// The group is closed, since the server does not know it.
    Closed,
    /// The bytes are not UTF-8.
    NotUtf8,
    /// The text is no UUID (RFC 9562).
    BadUuid,
    /// A number is none of those that it may be.
    OutOfRange,
    /// The place has no ticket of this number.
    NoTicket,
    /// The place has no watch of this number.
    NoWatch,
    /// The rules are faulty.
    BadRules,
    /// A client sits at the place.
    InUse,
    /// A change of the place asks for a run of a mutator.
    Asks,
    /// No client sits at the place.
    NoClient,
    /// The place is closed.
    NoPlace,
    /// No change of the place asks for a run.
    NotAsked,
    /// A reading of the place is open.
    Reads,
    /// No reading of the place is open.
    NotRead,
    /// The library is of another version than what calls it.
    BadVersion,
    // tools/refusals: end
    /// What this crate doesn't know: the library is a later one.
    Unknown(i32),
}

impl Refusal {
    /// The refusal of this number, an `enum giq_number` of `giqaymu.h`, with this code.
    pub fn of(number: i32, code: u32) -> Refusal {
        match number {
            // by tools/refusals: by number of all
            -1 => Refusal::NoMemory,
            -2 => Refusal::Moved,
            -3 => Refusal::Busy,
            -4 => Refusal::Gone,
            -5 => Refusal::Full,
            -6 => Refusal::Stamps,
            -7 => Refusal::Stale,
            -8 => Refusal::NoMutator,
            -9 => Refusal::Refused(code),
            -10 => Refusal::NotJson,
            -11 => Refusal::BadShape,
            -12 => Refusal::NotWhole,
            -13 => Refusal::Overtaken,
            -14 => Refusal::CookieWentBack,
            -15 => Refusal::CookieNotNew,
            -16 => Refusal::IdWentBack,
            -17 => Refusal::StateNotFound,
            -18 => Refusal::VersionNotSupported(VersionKind::of(code)),
            -19 => Refusal::NoSeat,
            -20 => Refusal::Closed,
            -101 => Refusal::NotUtf8,
            -102 => Refusal::BadUuid,
            -103 => Refusal::OutOfRange,
            -104 => Refusal::NoTicket,
            -105 => Refusal::NoWatch,
            -106 => Refusal::BadRules,
            -107 => Refusal::InUse,
            -108 => Refusal::Asks,
            -109 => Refusal::NoClient,
            -110 => Refusal::NoPlace,
            -111 => Refusal::NotAsked,
            -112 => Refusal::Reads,
            -113 => Refusal::NotRead,
            -201 => Refusal::BadVersion,
            // tools/refusals: end
            other => Refusal::Unknown(other),
        }
    }

    fn message(self) -> &'static str {
        match self {
            // by tools/refusals: messages of all
            Refusal::NoMemory => "memory was refused: free some and call again",
            Refusal::Moved => {
                "other clients changed the group first, as often as the call tries: call again"
            }
            Refusal::Busy => {
                "a slot or a pin was lost to other clients, as often as the call tries: call again"
            }
            Refusal::Gone => "a slot was given again while it was looked for: call again",
            Refusal::Full => {
                "no slot is free for the change: close readers, pull what confirms or clears, or open a larger group"
            }
            Refusal::Stamps => "the group has too few stamps left: open a new group",
            Refusal::Stale => {
                "the client's last id is not the one that the group has: refresh it and call again"
            }
            Refusal::NoMutator => "no mutator has this name",
            Refusal::Refused(_) => "the mutator refused, with the code",
            Refusal::NotJson => "the bytes are no JSON text, or one that nests too deep",
            Refusal::BadShape => "a field is missing, of a wrong type or out of range",
            Refusal::NotWhole => "a number is not whole, or does not fit 64 bits",
            Refusal::Overtaken => "another pull was applied since this one began: begin a new one",
            Refusal::CookieWentBack => {
                "the response's cookie is below the group's: begin a new pull"
            }
            Refusal::CookieNotNew => {
                "the cookie is as high as the group's, but the response brings something: begin a new pull"
            }
            Refusal::IdWentBack => {
                "the response confirms less of a client than was confirmed: begin a new pull"
            }
            Refusal::StateNotFound => {
                "the server does not know the client group, which is closed by this: open a new one"
            }
            Refusal::VersionNotSupported(_) => {
                "the server does not support the version of this kind"
            }
            Refusal::NoSeat => "all seats are out: give one back",
            Refusal::Closed => {
                "the group is closed, since the server does not know it: open a new one"
            }
            Refusal::NotUtf8 => "the bytes are not UTF-8",
            Refusal::BadUuid => "the text is no UUID (RFC 9562)",
            Refusal::OutOfRange => "a number is none of those that it may be",
            Refusal::NoTicket => "the place has no ticket of this number: begin a pull",
            Refusal::NoWatch => "the place has no watch of this number: begin a watch",
            Refusal::BadRules => "the rules are faulty",
            Refusal::InUse => "a client sits at the place: let it leave first",
            Refusal::Asks => {
                "a change of the place asks for a run of a mutator: do it, or give the change up"
            }
            Refusal::NoClient => "no client sits at the place: sit down first",
            Refusal::NoPlace => "the place is closed: open a group",
            Refusal::NotAsked => "no change of the place asks for a run: mutate, or end a pull",
            Refusal::Reads => "a reading of the place is open: end it first",
            Refusal::NotRead => "no reading of the place is open: begin one",
            Refusal::BadVersion => {
                "the library is of another version than what calls it: build both of one version"
            }
            // tools/refusals: end
            Refusal::Unknown(_) => "the library answered an unknown number",
        }
    }
}

impl fmt::Display for Refusal {
    fn fmt(&self, f: &mut fmt::Formatter<'_>) -> fmt::Result {
        f.write_str(self.message())?;
        match self {
            Refusal::Refused(code) => write!(f, " ({code})"),
            Refusal::VersionNotSupported(kind) => write!(f, " ({kind:?})"),
            Refusal::Unknown(number) => write!(f, " ({number})"),
            _ => Ok(()),
        }
    }
}

impl Error for Refusal {}

/// Why a group was not opened.
#[derive(Clone, Debug, PartialEq, Eq)]
pub struct OpenError {
    /// The refusal.
    pub refusal: Refusal,
    /// What is wrong with rules that were refused with `BadRules`, and where, as `/add/0/2: unknown word`
    /// (`docs/RULES.md`). It is empty where they only stand beside mutators of the program's own, and where memory was
    /// refused.
    pub fault: String,
}

impl fmt::Display for OpenError {
    fn fmt(&self, f: &mut fmt::Formatter<'_>) -> fmt::Result {
        write!(f, "{}{}{}", self.refusal, if self.fault.is_empty() { "" } else { ": " }, self.fault)
    }
}

impl Error for OpenError {}

impl From<OpenError> for Refusal {
    fn from(error: OpenError) -> Refusal {
        error.refusal
    }
}
