use std::fmt;
use std::sync::OnceLock;

use crate::{library, Error};

/// The oldest library that has each call of this crate.
const NEEDED: Version = Version { major: 1, minor: 0, patch: 0 };

/// A version of the C library.
#[derive(Debug, Clone, Copy, PartialEq, Eq, PartialOrd, Ord, Hash)]
pub struct Version {
    /// Rises if a call changes.
    pub major: u32,
    /// Rises if a call is added.
    pub minor: u32,
    /// Rises with all other changes.
    pub patch: u32,
}

impl fmt::Display for Version {
    fn fmt(&self, to: &mut fmt::Formatter<'_>) -> fmt::Result {
        write!(to, "{}.{}.{}", self.major, self.minor, self.patch)
    }
}

/// The version of the library that is called, which may be another one than the program was linked
/// with. A call of a library of another major version than this crate's, or of one that is older
/// than this crate needs, is refused with [`Error::IncompatibleLibrary`].
///
/// ```
/// assert_eq!(minorder::library_version().major, 1);
/// ```
#[must_use]
pub fn library_version() -> Version {
    static FOUND: OnceLock<Version> = OnceLock::new();
    *FOUND.get_or_init(|| {
        let number = library::version();
        Version { major: number / 10_000, minor: number / 100 % 100, patch: number % 100 }
    })
}

/// Refuses a library that this crate can't call.
pub(crate) fn check_library() -> Result<(), Error> {
    let found = library_version();
    if found.major == NEEDED.major && found >= NEEDED {
        Ok(())
    } else {
        Err(Error::IncompatibleLibrary { found, needed: NEEDED })
    }
}
