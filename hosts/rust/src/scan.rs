//! Which rows are read.

/// Where the rows of a scan begin, in the order of their keys' bytes.
#[derive(Clone, Copy, Debug, Default, PartialEq, Eq)]
pub enum Start<'a> {
    /// At the first key.
    #[default]
    Any,
    /// At this key, or the next one.
    At(&'a str),
    /// After this key.
    After(&'a str),
}

/// Which rows: those whose keys begin with the prefix, from the start on, so many at the most. The default is all.
#[derive(Clone, Copy, Debug, Default, PartialEq, Eq)]
pub struct Scan<'a> {
    /// With what the keys begin.
    pub prefix: &'a str,
    /// Where the rows begin.
    pub start: Start<'a>,
    /// How many at the most, below 2^64 - 1; without it, all.
    pub limit: Option<u64>,
}

impl<'a> Scan<'a> {
    /// All rows whose keys begin with the prefix.
    pub fn of(prefix: &'a str) -> Scan<'a> {
        Scan { prefix, ..Scan::default() }
    }
}
