//! Chunk key encodings.

use std::fmt;

use crate::calls;
use crate::error::{Error, Result};
use crate::ffi;
use crate::grid::{answered, tell};
use crate::keys::{usual_length, Keys};
use crate::library;
use crate::memory::{append, text_of, zeros};

/// A chunk key encoding: under which key each chunk of an array is stored.
///
/// An encoding prepares itself once, as numbers. So no call reads JSON, except for each page of a
/// plan. It never changes, and any number of threads may ask it at once. Two are equal if they were
/// made of the same text.
///
/// # Example
///
/// ```
/// use zarrs_chunks::Encoding;
///
/// let encoding = Encoding::new(r#"{"name":"v2","configuration":{"separator":"/"}}"#)?;
/// assert_eq!(encoding.encode(&[1, 23, 45])?, "1/23/45");
/// assert_eq!(encoding.decode("1/23/45", 3)?, Some(vec![1, 23, 45]));
/// # Ok::<(), zarrs_chunks::Error>(())
/// ```
#[derive(Clone, PartialEq, Eq, Hash)]
pub struct Encoding {
    chunk_key_encoding: String,
    /// Those that `zarrs_prepare_encoding` wrote, all of them.
    numbers: Vec<u64>,
}

impl Encoding {
    /// The encoding of this text, which is the JSON text of the member `chunk_key_encoding` of the
    /// array's `zarr.json`: an object, or a name alone, with its quotes.
    ///
    /// # Errors
    ///
    /// [`Error::NotJson`], [`Error::NotMetadata`] and [`Error::Refused`] with the library's words;
    /// [`Error::OutOfMemory`]; [`Error::WrongVersion`] and [`Error::WrongProcessor`] if the
    /// library can't be called.
    ///
    /// # Example
    ///
    /// ```
    /// use zarrs_chunks::Encoding;
    ///
    /// assert_eq!(Encoding::new(r#""default""#)?.encode(&[10, 2])?, "c/10/2");
    /// let refused = Encoding::new(r#""v3""#).unwrap_err();
    /// assert_eq!(refused.to_string(), "name `v3` is not supported");
    /// # Ok::<(), zarrs_chunks::Error>(())
    /// ```
    pub fn new(chunk_key_encoding: &str) -> Result<Encoding> {
        library::check()?;
        // A suffix takes a number more for each byte.
        let mut numbers = zeros(3)?;
        let (mut code, mut needed) = calls::prepare_encoding(chunk_key_encoding, &mut numbers);
        if code == ffi::SHORT_BUFFER {
            numbers = zeros(needed)?;
            (code, needed) = calls::prepare_encoding(chunk_key_encoding, &mut numbers);
        }
        if code != ffi::OK {
            let fault = |words: &mut [u8]| calls::encoding_fault(chunk_key_encoding, words);
            return Err(Error::of_metadata(code, fault));
        }
        numbers.truncate(needed);
        Ok(Encoding { chunk_key_encoding: text_of(chunk_key_encoding)?, numbers })
    }

    /// The text that the encoding was made of.
    ///
    /// # Example
    ///
    /// ```
    /// use zarrs_chunks::Encoding;
    ///
    /// assert_eq!(Encoding::new(r#""v2""#)?.chunk_key_encoding(), r#""v2""#);
    /// # Ok::<(), zarrs_chunks::Error>(())
    /// ```
    #[must_use]
    pub fn chunk_key_encoding(&self) -> &str {
        &self.chunk_key_encoding
    }

    /// The key of a chunk. It has as many dimensions as there are numbers.
    ///
    /// # Errors
    ///
    /// [`Error::OutOfMemory`].
    ///
    /// # Example
    ///
    /// ```
    /// use zarrs_chunks::Encoding;
    ///
    /// assert_eq!(Encoding::new(r#""v2""#)?.encode(&[10, 2])?, "10.2");
    /// # Ok::<(), zarrs_chunks::Error>(())
    /// ```
    pub fn encode(&self, chunk: &[u64]) -> Result<String> {
        Ok(self.encode_all(1, chunk)?.into_text())
    }

    /// Returns the keys of `count` chunks, whose numbers come one after another in `chunks`,
    /// without anything between two. Each chunk has as many dimensions as the others.
    ///
    /// # Errors
    ///
    /// [`Error::WrongLength`] if `chunks` hasn't as many numbers for one chunk as for another;
    /// [`Error::OutOfMemory`].
    ///
    /// # Example
    ///
    /// ```
    /// use zarrs_chunks::Encoding;
    ///
    /// let keys = Encoding::new(r#""default""#)?.encode_all(2, &[0, 0, 10, 2])?;
    /// assert_eq!(keys.iter().collect::<Vec<_>>(), ["c/0/0", "c/10/2"]);
    /// # Ok::<(), zarrs_chunks::Error>(())
    /// ```
    pub fn encode_all(&self, count: usize, chunks: &[u64]) -> Result<Keys> {
        let dimensionality = chunks.len().checked_div(count).unwrap_or(0);
        let (given, wanted) = (chunks.len(), dimensionality * count);
        if given != wanted {
            return Err(Error::WrongLength { argument: "chunks", given, wanted });
        }
        let mut offsets = zeros(count.checked_add(1).ok_or(Error::OutOfMemory)?)?;
        let mut text = zeros(usual_length(count, dimensionality))?;
        let numbers = &self.numbers;
        let (mut code, mut needed) =
            calls::keys_of(numbers, dimensionality, chunks, &mut text, &mut offsets);
        if code == ffi::SHORT_BUFFER {
            text = zeros(needed)?;
            (code, needed) =
                calls::keys_of(numbers, dimensionality, chunks, &mut text, &mut offsets);
        }
        answered(code)?;
        text.truncate(needed);
        Keys::new(text, offsets)
    }

    /// Returns the chunk with `dimensionality` numbers that has this key; `None` if no such chunk
    /// has it. The chunk may lie outside of the grid.
    ///
    /// # Errors
    ///
    /// [`Error::OutOfMemory`].
    ///
    /// # Example
    ///
    /// ```
    /// use zarrs_chunks::Encoding;
    ///
    /// let encoding = Encoding::new(r#""default""#)?;
    /// assert_eq!(encoding.decode("c/10/2", 2)?, Some(vec![10, 2]));
    /// assert_eq!(encoding.decode("c/10/02", 2)?, None);
    /// # Ok::<(), zarrs_chunks::Error>(())
    /// ```
    pub fn decode(&self, key: &str, dimensionality: usize) -> Result<Option<Vec<u64>>> {
        let (mut chunk, mut found) = (zeros(dimensionality)?, [false]);
        self.decode_all(&[key], dimensionality, &mut chunk, &mut found)?;
        let [is_found] = found;
        Ok(is_found.then_some(chunk))
    }

    /// Writes the chunk of each key. `chunks` gets the numbers of all chunks, one after another.
    /// `found` gets `true` if the text is the key of a chunk with `dimensionality` numbers, and
    /// `false` if not; then the numbers of its chunk stay as they were. After an error both hold
    /// anything.
    ///
    /// A key is a `&str`, a `String` or bytes, as a listing of a store gives them.
    ///
    /// # Errors
    ///
    /// [`Error::WrongLength`] if `found` hasn't an item for each key, or `chunks` hasn't
    /// `dimensionality` numbers; [`Error::OutOfMemory`].
    ///
    /// # Example
    ///
    /// ```
    /// use zarrs_chunks::Encoding;
    ///
    /// let (mut chunks, mut found) = ([0; 4], [false; 2]);
    /// let encoding = Encoding::new(r#""default""#)?;
    /// encoding.decode_all(&["c/10/2", "zarr.json"], 2, &mut chunks, &mut found)?;
    /// assert_eq!((chunks, found), ([10, 2, 0, 0], [true, false]));
    /// # Ok::<(), zarrs_chunks::Error>(())
    /// ```
    pub fn decode_all<K: AsRef<[u8]>>(
        &self,
        keys: &[K],
        dimensionality: usize,
        chunks: &mut [u64],
        found: &mut [bool],
    ) -> Result<()> {
        let (given, wanted) = (found.len(), keys.len());
        if given != wanted {
            return Err(Error::WrongLength { argument: "found", given, wanted });
        }
        let (mut text, mut offsets) = (Vec::new(), zeros(1)?);
        for key in keys {
            append(&mut text, key.as_ref())?;
            append(&mut offsets, &[text.len() as u64])?;
        }
        self.decode_text(&text, &offsets, dimensionality, chunks, found)
    }

    /// Does the same for keys that follow one another in one text, as [`Keys`] has them. `offsets`
    /// says where each begins, in bytes, and at last where the last one ends.
    ///
    /// # Errors
    ///
    /// [`Error::WrongOffsets`] if offsets descend or lie past the text; the errors of
    /// [`decode_all`](Encoding::decode_all).
    ///
    /// # Example
    ///
    /// ```
    /// use zarrs_chunks::Encoding;
    ///
    /// let (mut chunks, mut found) = ([0; 4], [false; 2]);
    /// let encoding = Encoding::new(r#""default""#)?;
    /// encoding.decode_text(b"c/0/0c/10/2", &[0, 5, 11], 2, &mut chunks, &mut found)?;
    /// assert_eq!((chunks, found), ([0, 0, 10, 2], [true, true]));
    /// # Ok::<(), zarrs_chunks::Error>(())
    /// ```
    pub fn decode_text(
        &self,
        text: &[u8],
        offsets: &[u64],
        dimensionality: usize,
        chunks: &mut [u64],
        found: &mut [bool],
    ) -> Result<()> {
        // No slice is as long as the greatest number.
        let lengths = [
            ("offsets", offsets.len(), found.len().saturating_add(1)),
            ("chunks", chunks.len(), found.len().saturating_mul(dimensionality)),
        ];
        for (argument, given, wanted) in lengths {
            if given != wanted {
                return Err(Error::WrongLength { argument, given, wanted });
            }
        }
        let mut marks = zeros(found.len())?;
        let numbers = &self.numbers;
        match calls::chunks_of_keys(numbers, dimensionality, text, offsets, chunks, &mut marks) {
            (ffi::WRONG_OFFSETS, which) => return Err(Error::WrongOffsets { which }),
            (code, _) => answered(code)?,
        }
        tell(&marks, found);
        Ok(())
    }
}

impl fmt::Debug for Encoding {
    fn fmt(&self, formatter: &mut fmt::Formatter<'_>) -> fmt::Result {
        let mut shown = formatter.debug_struct("Encoding");
        shown.field("chunk_key_encoding", &self.chunk_key_encoding).finish()
    }
}
