//! The client half of [Replicache](https://doc.replicache.dev/concepts/how-it-works) for one client group.
//!
//! A [`Group`] is opened with so many places. A client sits down at a [`Place`], makes its calls and leaves; then
//! another one may sit there. Places go to threads, each to one, and are used there at the same time; no call waits
//! for another, starts a thread or opens a socket. The program carries the bodies of requests and responses.
//!
//! ```
//! use giqaymu::{Ended, Group};
//!
//! # fn main() -> Result<(), giqaymu::Refusal> {
//! let group = Group {
//!     id: "00000000-0000-4000-8000-000000000001",
//!     profile: "p1",
//!     schema: "s1",
//!     rules: r#"{"add":[["put",["cat","todo/",["arg","id"]],["arg","text"]]]}"#,
//!     own_mutators: false,
//!     slots: 4096,
//! };
//! let [mut anna, mut bert] = group.open()?;
//! anna.sit("00000000-0000-4000-8000-00000000000a")?;
//! bert.sit("00000000-0000-4000-8000-00000000000b")?;
//! anna.mutate("add", r#"{"id":"x","text":"milk"}"#, 1_700_000_000_000)?;
//! assert_eq!(bert.get("todo/x")?, Some(&br#""milk""#[..]));
//!
//! let (ticket, request) = bert.begin_pull()?;
//! assert!(request.starts_with(b"{\"clientGroupID\""));
//! let response = br#"{"cookie":1,"lastMutationIDChanges":{},"patch":[{"op":"put","key":"n","value":5}]}"#;
//! assert_eq!(bert.end_pull(ticket, response)?, Ended::Applied);
//! # Ok(())
//! # }
//! ```
//!
//! What the header `giqaymu.h` asks of a caller in C is kept by types here. A place is used by one thread at a time:
//!
//! ```compile_fail,E0277
//! fn is_shared<T: Sync>() {}
//! is_shared::<giqaymu::Place>();
//! ```
//!
//! What it lends ends before its next call:
//!
//! ```compile_fail,E0499
//! fn both(place: &mut giqaymu::Place) -> Result<(), giqaymu::Refusal> {
//!     let value = place.get("a")?;
//!     place.get("b")?;
//!     assert!(value.is_some());
//!     Ok(())
//! }
//! ```
//!
//! Queries of one [`Reading`] are answered as of one moment, however others change the group meanwhile:
//!
//! ```
//! fn sum(place: &mut giqaymu::Place) -> Result<(usize, usize), giqaymu::Refusal> {
//!     let mut reading = place.begin_read()?;
//!     let length = |value: Option<&[u8]>| value.map_or(0, <[u8]>::len);
//!     Ok((length(reading.get("a")?), length(reading.get("b")?)))
//! }
//! ```
//!
//! Mutators may be the program's own, beside rules too. A change calls them, and each rebase again:
//!
//! ```
//! use giqaymu::{Group, Ran, Refusal};
//!
//! # fn main() -> Result<(), Refusal> {
//! let group = Group {
//!     id: "00000000-0000-4000-8000-000000000001",
//!     profile: "p1",
//!     schema: "s1",
//!     rules: "",
//!     own_mutators: true,
//!     slots: 4096,
//! };
//! let [mut anna] = group.open()?;
//! anna.sit("00000000-0000-4000-8000-00000000000a")?;
//! let id = anna.mutate_with("rename", r#""milk""#, 1_700_000_000_000, |run, draft| {
//!     draft.put("todo/x", &run.args)?;
//!     Ok(Ran::Done)
//! })?;
//! assert_eq!((id, anna.get("todo/x")?), (1, Some(&br#""milk""#[..])));
//! # Ok(())
//! # }
//! ```
//!
//! Each call needs at most [`STACK`] bytes of its thread's stack.

mod edge;
mod group;
mod own;
mod place;
mod reading;
mod refusal;
mod scan;
mod version;

pub use edge::{STACK, version};
pub use group::Group;
pub use own::{Draft, Ran, Reason, Run};
pub use place::{Ended, Place, Ticket, Watch};
pub use reading::Reading;
pub use refusal::{OpenError, Refusal, VersionKind};
pub use scan::{Scan, Start};
pub use version::Version;
