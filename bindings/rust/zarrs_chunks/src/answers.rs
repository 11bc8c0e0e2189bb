//! Answers that are text: the answers to any question, and the words of a refusal.

use crate::calls;
use crate::error::{Error, Result};
use crate::ffi;
use crate::library;
use crate::memory::zeros;

/// The longest text that is asked for, and the one that there is room for at first, in bytes.
pub(crate) const LONGEST: usize = 1 << 30;
pub(crate) const USUAL: usize = 256;

/// Returns the library's answer to any question of `chunkcalls`, as `crates/chunkcalls/CALLING.md`
/// lists them: what has no method of its own, too.
///
/// A question is a JSON object. The answer is compact JSON, or `refused: ` or `unreadable: ` and
/// why, without a line feed. A walk is best read page by page, by `first` and `items`.
///
/// # Errors
///
/// [`Error::OutOfMemory`]; [`Error::TooLong`] if the answer has more than 1073741824 bytes;
/// [`Error::WrongVersion`] and [`Error::WrongProcessor`] if the library can't be called.
///
/// # Example
///
/// ```
/// use zarrs_chunks::answer;
///
/// let question = r#"{"chunk_key_encoding":"v2","call":"encode","of":[1,23,45]}"#;
/// assert_eq!(answer(question)?, r#""1.23.45""#);
/// let question = r#"{"chunk_key_encoding":"v3","call":"encode","of":[]}"#;
/// assert_eq!(answer(question)?, "refused: name `v3` is not supported");
/// # Ok::<(), zarrs_chunks::Error>(())
/// ```
pub fn answer(question: &str) -> Result<String> {
    line_within(question, (USUAL, LONGEST))
}

/// The same, with room for `room.0` bytes at first, and for `room.1` bytes at most.
pub(crate) fn line_within(question: &str, room: (usize, usize)) -> Result<String> {
    library::check()?;
    let (code, mut line) = text_within(room, |line| calls::answer(question, line))?;
    if code != ffi::OK {
        return Err(Error::of_code(code));
    }
    if line.ends_with('\n') {
        line.pop();
    }
    Ok(line)
}

/// The code of a call that writes a text to a buffer and returns how long it is, and the text. The
/// call is given as much room as it needs.
pub(crate) fn words_of(call: impl FnMut(&mut [u8]) -> (i32, usize)) -> Result<(i32, String)> {
    text_within((USUAL, LONGEST), call)
}

fn text_within(
    (mut length, longest): (usize, usize),
    mut call: impl FnMut(&mut [u8]) -> (i32, usize),
) -> Result<(i32, String)> {
    while length <= longest {
        let mut text = zeros(length)?;
        let (code, needed) = call(&mut text);
        if code == ffi::OUT_OF_MEMORY {
            return Err(Error::OutOfMemory);
        }
        if needed <= length {
            text.truncate(needed);
            let text = String::from_utf8(text);
            return text.map(|text| (code, text)).map_err(|_| Error::of_answer("no UTF-8"));
        }
        // The greatest number says that the length isn't known: so twice as much is tried.
        length = if needed == usize::MAX { 2 * length } else { needed };
    }
    Err(Error::TooLong { most: longest })
}
