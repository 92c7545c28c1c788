//! Which archive is linked.

use crate::sys;

/// The version that this crate is made for. It rises by 1 with every landing that changes what the library declares or
/// answers.
pub const VERSION: u32 = 5;

/// The version of the linked archive, which should be [`VERSION`]. An archive of version 1 has no such number, and
/// cannot be linked with this crate.
///
/// ```
/// assert_eq!(pinhkray::version(), pinhkray::VERSION);
/// ```
pub fn version() -> u32 {
    sys::version()
}
