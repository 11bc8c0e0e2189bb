//! The library that is linked.

use crate::answers::words_of;
use crate::calls;
use crate::error::{Error, Result};
use crate::ffi;

/// The version of the library's calls that this crate is for. [`abi_version`] returns the version
/// that the library has.
///
/// # Example
///
/// ```
/// assert_eq!(zarrs_chunks::ABI_VERSION, 3);
/// ```
pub const ABI_VERSION: i32 = ffi::ABI_VERSION;

/// How many bytes of stack a call needs at most.
///
/// Threads of `std` have 2 MiB, and may be given less by
/// [`Builder::stack_size`](std::thread::Builder::stack_size). Most of this is for metadata that
/// nest deep; metadata that hold nothing but a grid or an encoding need a quarter of it.
///
/// # Example
///
/// ```
/// use zarrs_chunks::{Encoding, Error, STACK};
///
/// let asked = || Encoding::new(r#""default""#)?.encode(&[10, 2]);
/// // What a call needs, and as much again for what else the thread does.
/// let thread = std::thread::Builder::new().stack_size(2 * STACK).spawn(asked)?;
/// assert_eq!(thread.join().unwrap()?, "c/10/2");
/// # Ok::<(), Box<dyn std::error::Error>>(())
/// ```
pub const STACK: usize = ffi::STACK;

/// Returns the version of the calls that the linked library has. It must be [`ABI_VERSION`]: with
/// another one, nothing is made, and the error is [`Error::WrongVersion`].
///
/// # Example
///
/// ```
/// assert_eq!(zarrs_chunks::abi_version(), zarrs_chunks::ABI_VERSION);
/// ```
#[must_use]
pub fn abi_version() -> i32 {
    calls::abi_version()
}

/// Returns the version of the linked library, as text. It is this crate's version if both are of
/// one release.
///
/// # Errors
///
/// [`Error::OutOfMemory`].
///
/// # Example
///
/// ```
/// assert_eq!(zarrs_chunks::version()?, "0.1.0");
/// # Ok::<(), zarrs_chunks::Error>(())
/// ```
pub fn version() -> Result<String> {
    match words_of(calls::version)? {
        (ffi::OK, version) => Ok(version),
        (code, _) => Err(Error::of_code(code)),
    }
}

/// Whether the library can be called: whatever makes a grid, an encoding or an answer asks first.
pub(crate) fn check() -> Result<()> {
    // What x86-64-v2 has beyond every x86-64 processor, by the names of Linux's /proc/cpuinfo.
    let wanted = [
        ("cx16", is_x86_feature_detected!("cmpxchg16b")),
        ("popcnt", is_x86_feature_detected!("popcnt")),
        ("sse4_1", is_x86_feature_detected!("sse4.1")),
        ("sse4_2", is_x86_feature_detected!("sse4.2")),
        ("ssse3", is_x86_feature_detected!("ssse3")),
    ];
    for (missing, is_there) in wanted {
        if !is_there {
            return Err(Error::WrongProcessor { missing });
        }
    }
    match abi_version() {
        ffi::ABI_VERSION => Ok(()),
        found => Err(Error::WrongVersion { found }),
    }
}
