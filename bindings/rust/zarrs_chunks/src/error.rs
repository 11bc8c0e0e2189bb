//! Why there is no answer.

use std::fmt;

use crate::answers::words_of;
use crate::calls;
use crate::ffi;
use crate::memory;

/// What the calls of this crate answer.
///
/// # Example
///
/// ```
/// use zarrs_chunks::{Encoding, Result};
///
/// fn key(chunk: &[u64]) -> Result<String> {
///     Encoding::new(r#""default""#)?.encode(chunk)
/// }
/// assert_eq!(key(&[10, 2]).unwrap(), "c/10/2");
/// ```
pub type Result<T> = std::result::Result<T, Error>;

/// Why a call has no answer.
///
/// It is no error if the rules of Zarr give no answer: for an element that lies in no chunk a call
/// answers `None`, or in a batch `false`.
///
/// # Example
///
/// ```
/// use zarrs_chunks::{Error, Grid};
///
/// let chunk_grid = r#"{"name":"rectangular","configuration":{"chunk_shape":[[1,1],3]}}"#;
/// let error = Grid::new(&[3, 3], chunk_grid).unwrap_err();
/// assert!(matches!(error, Error::Refused { .. }));
/// assert_eq!(
///     error.to_string(),
///     "rectangular chunk grid configuration: [[1, 1], 3] not compatible with array shape [3, 3]"
/// );
/// ```
#[derive(Debug, Clone, PartialEq, Eq, Hash)]
#[non_exhaustive]
pub enum Error {
    /// There is too little memory for the answer. Everything can be used as before.
    OutOfMemory,
    /// A list or a buffer has more or fewer items than the call demands.
    WrongLength {
        /// The name of the argument.
        argument: &'static str,
        /// How many items it has.
        given: usize,
        /// How many items it must have.
        wanted: usize,
    },
    /// The metadata isn't JSON.
    NotJson {
        /// The library's words.
        words: String,
    },
    /// The metadata is JSON, but neither a name nor an object with a name and a configuration.
    NotMetadata {
        /// The library's words.
        words: String,
    },
    /// The library refuses the grid or the encoding, or what is asked of it.
    Refused {
        /// The library's words.
        words: String,
    },
    /// A start and a shape make no box: it ends past 18446744073709551615.
    NotABox {
        /// The number of the first such box of the call, counted from 0.
        which: usize,
    },
    /// Offsets descend, or lie past the text.
    WrongOffsets {
        /// The number of the first key of which they do, counted from 0.
        which: usize,
    },
    /// The answer is longer than the longest that this crate asks for.
    TooLong {
        /// How many bytes that is.
        most: usize,
    },
    /// The library that is linked has another version of the calls than this crate.
    WrongVersion {
        /// The version of the library. The crate's is [`ABI_VERSION`](crate::ABI_VERSION).
        found: i32,
    },
    /// The processor is too old for the library, which is built for x86-64-v2.
    WrongProcessor {
        /// What the processor lacks.
        missing: &'static str,
    },
    /// The library ended with a code, or answered something, that its header rules out here.
    Unexpected {
        /// The code of `zarrs_chunks.h`; 0 if the call answered, but not as the header says.
        code: i32,
        /// What is wrong: the library's words for the code, or the answer.
        words: String,
    },
}

impl Error {
    /// The error of a code that no other variant stands for, with the library's words.
    pub(crate) fn of_code(code: i32) -> Error {
        match code {
            ffi::OUT_OF_MEMORY => Error::OutOfMemory,
            // Each call handles the codes that it may end with before. So this is one of
            // ZARRS_WRONG_LENGTH, ZARRS_SHORT_BUFFER and ZARRS_NOT_PREPARED, though lengths and
            // numbers are right; or one that the call doesn't end with.
            _ => match words_of(|words| calls::code_words(code, words)) {
                Ok((_, words)) => Error::Unexpected { code, words },
                Err(error) => error,
            },
        }
    }

    /// The error of a call that reads metadata, by its code. The library's words are asked for
    /// if the code is one of metadata.
    pub(crate) fn of_metadata(code: i32, fault: impl FnMut(&mut [u8]) -> (i32, usize)) -> Error {
        if ![ffi::NOT_JSON, ffi::NOT_METADATA, ffi::REFUSED].contains(&code) {
            return Error::of_code(code);
        }
        match words_of(fault) {
            Ok((ffi::NOT_JSON, words)) => Error::NotJson { words },
            Ok((ffi::NOT_METADATA, words)) => Error::NotMetadata { words },
            Ok((ffi::REFUSED, words)) => Error::Refused { words },
            Ok((code, _)) => Error::of_code(code),
            Err(error) => error,
        }
    }

    /// The error of an answer that isn't what the header says.
    pub(crate) fn of_answer(words: &str) -> Error {
        match memory::text_of(words) {
            Ok(words) => Error::Unexpected { code: ffi::OK, words },
            Err(error) => error,
        }
    }
}

impl fmt::Display for Error {
    fn fmt(&self, formatter: &mut fmt::Formatter<'_>) -> fmt::Result {
        match self {
            Error::OutOfMemory => write!(formatter, "out of memory"),
            Error::WrongLength { argument, given, wanted } => write!(
                formatter,
                "{argument}: there are to be {wanted} items, and {given} are given"
            ),
            Error::NotJson { words } | Error::NotMetadata { words } | Error::Refused { words } => {
                write!(formatter, "{words}")
            }
            Error::NotABox { which } => {
                write!(formatter, "box {which} ends past 18446744073709551615")
            }
            Error::WrongOffsets { which } => {
                write!(formatter, "the offsets of key {which} descend, or lie past the text")
            }
            Error::TooLong { most } => {
                write!(formatter, "the answer is longer than {most} bytes")
            }
            Error::WrongVersion { found } => write!(
                formatter,
                "the library has the version {found} of the calls, and this crate is for the \
                 version {}",
                ffi::ABI_VERSION
            ),
            Error::WrongProcessor { missing } => write!(
                formatter,
                "the library needs an x86-64-v2 processor, and this one is without {missing}"
            ),
            Error::Unexpected { code: ffi::OK, words } => {
                write!(formatter, "the library answers what its header rules out: {words}")
            }
            Error::Unexpected { code, words } => {
                write!(formatter, "the library ends with the unexpected code {code}: {words}")
            }
        }
    }
}

impl std::error::Error for Error {}

#[cfg(test)]
mod tests {
    use super::Error;

    #[test]
    fn each_code_is_told_in_the_words_of_the_library() {
        assert_eq!(Error::of_code(-1), Error::OutOfMemory);
        let none = "no call ends with this code";
        let told = [
            (-2, "an array has more or fewer items than the others demand"),
            (-3, "the metadata is not JSON"),
            (-4, "the metadata is no extension's"),
            (-5, "the grid or the encoding is refused"),
            (-6, "a box ends past 18446744073709551615"),
            (-7, "offsets descend, or lie past the text"),
            (-8, "the text of the answer is longer than its buffer"),
            (-9, "the numbers are not those of a prepared grid or encoding"),
            (-10, none),
            (1, none),
            (i32::MIN, none),
        ];
        for (code, words) in told {
            let unexpected = Error::Unexpected { code, words: words.to_owned() };
            assert_eq!(Error::of_code(code), unexpected);
            // Three codes of metadata have words of their own.
            if !(-5..=-3).contains(&code) {
                assert_eq!(Error::of_metadata(code, |_| panic!("asked for words")), unexpected);
            }
        }
        assert_eq!(Error::of_metadata(-1, |_| (-5, 0)), Error::OutOfMemory);
        // The words are the words of the fault that is found, and a second call finds the same.
        let told = |code| {
            Error::of_metadata(code, |words| {
                words[..3].copy_from_slice(b"why");
                (code, 3)
            })
        };
        let words = "why".to_owned();
        assert_eq!(told(-3), Error::NotJson { words: words.clone() });
        assert_eq!(told(-4), Error::NotMetadata { words: words.clone() });
        assert_eq!(told(-5), Error::Refused { words });
        assert_eq!(Error::of_metadata(-5, |_| (-1, 0)), Error::OutOfMemory);
    }
}
