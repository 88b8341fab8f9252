//! The calls across the edge to the library: all that is unsafe.

use crate::version::Version;
use std::ffi::c_void;
use std::{ptr, slice};

/// How many bytes of stack were enough for each call that was tried, with rules, values and responses that nest as deep
/// as they may. That is measured, not proved.
pub const STACK: usize = 262_144;

/// Which call is made, by its number in `giqaymu.h`.
#[derive(Clone, Copy)]
#[repr(u32)]
pub(crate) enum What {
    Sit = 0,
    Leave = 1,
    Get = 2,
    Has = 3,
    Scan = 4,
    Pending = 5,
    Cookie = 6,
    Closed = 7,
    Refresh = 8,
    Push = 9,
    BeginPull = 10,
    ForgetTicket = 11,
    EndPull = 12,
    Mutate = 13,
    Watch = 14,
    Poll = 15,
    AskedName = 16,
    AskedArgs = 17,
    DraftGet = 18,
    DraftHas = 19,
    DraftScan = 20,
    DraftPut = 21,
    DraftDel = 22,
    Ran = 23,
    GiveUp = 24,
    Slots = 25,
    BeginRead = 26,
    EndRead = 27,
    Moment = 28,
    PulledGet = 29,
    PulledScan = 30,
    Unwatch = 31,
    AskedRun = 32,
    PollChanges = 33,
    DraftWrites = 34,
}

impl What {
    /// Whether it asks what the group is, at one moment, which is told with the answer.
    pub(crate) fn is_query(self) -> bool {
        matches!(
            self,
            What::Get
                | What::Has
                | What::Scan
                | What::Pending
                | What::Cookie
                | What::Closed
                | What::Push
                | What::PulledGet
                | What::PulledScan
        )
    }
}

/// What a call is given: two numbers and two byte strings, of which each call uses some.
#[derive(Clone, Copy, Default)]
pub(crate) struct Given<'a> {
    pub m: u32,
    pub n: u64,
    pub a: &'a [u8],
    pub b: &'a [u8],
}

/// What a call told.
pub(crate) struct Told<'a> {
    /// What it returned: below 0 it was refused.
    pub returned: i32,
    pub bytes: &'a [u8],
    pub number: u64,
    pub code: u32,
}

/// `giq_answer`.
#[repr(C)]
struct Answer {
    at: *const u8,
    len: usize,
    number: u64,
    code: u32,
}

/// `giq_place`: it is closed where `is_open` is 0. No copy of it is made.
#[derive(Debug)]
#[repr(C)]
pub(crate) struct Handle {
    at: *mut c_void,
    is_open: u64,
}

unsafe extern "C" {
    fn giq_open(
        group: *const u8,
        group_len: usize,
        profile: *const u8,
        profile_len: usize,
        schema: *const u8,
        schema_len: usize,
        rules: *const u8,
        rules_len: usize,
        slots: u32,
        own_mutators: u32,
        places: *mut Handle,
        count: usize,
    ) -> i32;
    fn giq_call(
        place: *mut Handle,
        what: u32,
        m: u32,
        n: u64,
        a: *const u8,
        a_len: usize,
        b: *const u8,
        b_len: usize,
        answer: *mut Answer,
    ) -> i32;
    fn giq_close(place: *mut Handle);
    fn giq_rules_fault(rules: *const u8, rules_len: usize, text: *mut u8, room: usize) -> i64;
    safe fn giq_version() -> u32;
}

/// The version of the library that is linked.
pub fn version() -> Version {
    Version::of(giq_version())
}

/// What is wrong with rules, written into the room for it as far as that goes; how long it is. None where memory was
/// refused.
fn tell_fault(rules: &str, room: &mut [u8]) -> Option<usize> {
    // SAFETY: each pointer and length are those of a slice, and no pointer is NULL; `rules` is only read, and nobody
    // else uses `room` during the call.
    let told = unsafe { giq_rules_fault(rules.as_ptr(), rules.len(), room.as_mut_ptr(), room.len()) };
    usize::try_from(told).ok()
}

/// What is wrong with rules; nothing where memory was refused, too.
pub(crate) fn rules_fault(rules: &str) -> String {
    let mut text = vec![0; tell_fault(rules, &mut []).unwrap_or(0)];
    match tell_fault(rules, &mut text) {
        Some(_) => String::from_utf8_lossy(&text).into_owned(),
        None => String::new(),
    }
}

// SAFETY: a place may be used by one thread after another, since the library keeps nothing of it in a thread. It is not
// `Sync`, and each call takes `&mut Handle`, so one thread at a time uses it.
unsafe impl Send for Handle {}

impl Handle {
    fn closed() -> Handle {
        Handle { at: ptr::null_mut(), is_open: 0 }
    }

    /// The places of a group that is opened with the texts of its ID, its profile, its schema and its rules, or for
    /// mutators of the program's own; or what the library returned where it is refused.
    pub(crate) fn open(texts: [&str; 4], slots: u32, own: bool, count: usize) -> Result<Vec<Handle>, i32> {
        let [group, profile, schema, rules] = texts;
        let mut places: Vec<Handle> = (0..count).map(|_| Handle::closed()).collect();
        // SAFETY: each pointer and length are those of a text, which is only read, and no pointer is NULL; `places` has
        // `count` places, each of them closed.
        let returned = unsafe {
            giq_open(
                group.as_ptr(),
                group.len(),
                profile.as_ptr(),
                profile.len(),
                schema.as_ptr(),
                schema.len(),
                rules.as_ptr(),
                rules.len(),
                slots,
                u32::from(own),
                places.as_mut_ptr(),
                count,
            )
        };
        if returned < 0 { Err(returned) } else { Ok(places) }
    }

    /// Makes a call. What it lends ends before the next one.
    pub(crate) fn call(&mut self, what: What, given: Given<'_>) -> Told<'_> {
        let mut answer = Answer { at: ptr::null(), len: 0, number: 0, code: 0 };
        // SAFETY: `self` is closed or as the library left it, no copy of it is used, and nobody else uses it during the
        // call; the byte strings are only read, are not NULL, and aren't lent by this place, which is borrowed here.
        let returned = unsafe {
            giq_call(
                self,
                what as u32,
                given.m,
                given.n,
                given.a.as_ptr(),
                given.a.len(),
                given.b.as_ptr(),
                given.b.len(),
                &mut answer,
            )
        };
        let bytes = if answer.len == 0 {
            &[]
        } else {
            // SAFETY: the library answered so many bytes, which it keeps until the next call of this place; until then
            // it is borrowed.
            unsafe { slice::from_raw_parts(answer.at, answer.len) }
        };
        Told { returned, bytes, number: answer.number, code: answer.code }
    }
}

impl Drop for Handle {
    fn drop(&mut self) {
        // SAFETY: as in `call`; nothing that it lent is there any more.
        unsafe { giq_close(self) }
    }
}
