//! The version of the library.

use std::fmt;

/// The bit of what the library answers that says that it was built without its proof: `GIQ_UNPROVED`.
const UNPROVED: u32 = 0x8000_0000;

/// The version that this crate calls: `GIQ_VERSION`.
const CALLED: Version = Version::of(10_200);

/// A version of the library.
#[derive(Clone, Copy, Debug, PartialEq, Eq, Hash)]
pub struct Version {
    /// Its first number: with another one no group is opened.
    pub major: u32,
    /// Its second number: with another one no group is opened.
    pub minor: u32,
    /// Its third number: any is taken.
    pub patch: u32,
    /// Whether the library was built from its proof. It says so itself.
    pub proved: bool,
}

impl Version {
    /// The version of a number, as `giq_version` answers it.
    pub(crate) const fn of(number: u32) -> Version {
        let (proved, number) = (number & UNPROVED == 0, number & !UNPROVED);
        Version { major: number / 10_000, minor: number / 100 % 100, patch: number % 100, proved }
    }

    /// Whether this crate calls libraries of this version.
    pub(crate) fn is_called(self) -> bool {
        (self.major, self.minor) == (CALLED.major, CALLED.minor)
    }
}

impl fmt::Display for Version {
    fn fmt(&self, f: &mut fmt::Formatter<'_>) -> fmt::Result {
        let Version { major, minor, patch, proved } = self;
        write!(f, "{major}.{minor}.{patch}{}", if *proved { "" } else { " (unproved)" })
    }
}

#[cfg(test)]
mod tests {
    use super::*;

    #[test]
    fn this_crate_calls_its_minor_version() {
        let called = [10_200, 10_299, UNPROVED | 10_200].map(|number| Version::of(number).is_called());
        assert_eq!(called, [true; 3]);
        let others = [10_199, 10_300, 20_200, UNPROVED | 10_300].map(|number| Version::of(number).is_called());
        assert_eq!(others, [false; 4]);
        assert_eq!(Version::of(UNPROVED | 1_020_304).to_string(), "102.3.4 (unproved)");
    }
}
