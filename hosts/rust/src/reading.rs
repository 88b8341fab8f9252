//! Queries as of one moment.

use crate::edge::{Given, What};
use crate::place::Place;
use crate::refusal::Refusal;
use crate::scan::Scan;

/// Answers queries of a place as of one moment of [`Place::begin_read`]. Dropped, it ends. As long as it is there, the
/// slots that other clients let go are kept from use: drop it soon.
///
/// The bytes that it lends are good until its next call. Each call may be refused with `NoMemory`, `Busy` and `Gone`.
#[derive(Debug)]
pub struct Reading<'a> {
    place: &'a mut Place,
}

impl Place {
    /// Begins a reading: until it is dropped this place has it alone. Refused with `Reads` where one is open, which was
    /// forgotten and not dropped: then the client may leave.
    pub fn begin_read(&mut self) -> Result<Reading<'_>, Refusal> {
        self.call(What::BeginRead, Given::default())?;
        Ok(Reading { place: self })
    }
}

impl Reading<'_> {
    /// As [`Place::get`].
    pub fn get(&mut self, key: &str) -> Result<Option<&[u8]>, Refusal> {
        self.place.get(key)
    }

    /// As [`Place::has`].
    pub fn has(&mut self, key: &str) -> Result<bool, Refusal> {
        self.place.has(key)
    }

    /// As [`Place::scan`].
    pub fn scan(&mut self, scan: &Scan<'_>) -> Result<&[u8], Refusal> {
        self.place.scan(scan)
    }

    /// As [`Place::pulled_get`].
    pub fn pulled_get(&mut self, key: &str) -> Result<Option<&[u8]>, Refusal> {
        self.place.pulled_get(key)
    }

    /// As [`Place::pulled_scan`].
    pub fn pulled_scan(&mut self, scan: &Scan<'_>) -> Result<&[u8], Refusal> {
        self.place.pulled_scan(scan)
    }

    /// As [`Place::pending`].
    pub fn pending(&mut self) -> Result<&[u8], Refusal> {
        self.place.pending()
    }

    /// As [`Place::cookie`].
    pub fn cookie(&mut self) -> Result<&[u8], Refusal> {
        self.place.cookie()
    }

    /// As [`Place::closed`].
    pub fn closed(&mut self) -> Result<bool, Refusal> {
        self.place.closed()
    }

    /// As [`Place::push`].
    pub fn push(&mut self) -> Result<&[u8], Refusal> {
        self.place.push()
    }

    /// As [`Place::push_from`]; what is pending is what [`Reading::pending`] tells.
    pub fn push_from(&mut self, skip: u32) -> Result<&[u8], Refusal> {
        self.place.push_from(skip)
    }

    /// The number of its moment: see [`Place::moment`].
    pub fn moment(&mut self) -> Result<u64, Refusal> {
        self.place.moment()
    }

    /// As [`Place::read_at`].
    #[must_use]
    pub fn read_at(&self) -> u64 {
        self.place.read_at()
    }
}

impl Drop for Reading<'_> {
    fn drop(&mut self) {
        // It isn't refused, since nobody else has the place.
        let _ = self.place.call(What::EndRead, Given::default());
    }
}
