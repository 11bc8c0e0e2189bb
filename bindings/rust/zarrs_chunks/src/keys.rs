//! Keys, one after another in one text.

use crate::error::{Error, Result};

/// The keys of chunks, one after another in one text. [`Encoding::encode_all`] makes it.
///
/// [`Encoding::encode_all`]: crate::Encoding::encode_all
///
/// # Example
///
/// ```
/// use zarrs_chunks::Encoding;
///
/// let keys = Encoding::new(r#""default""#)?.encode_all(2, &[0, 0, 10, 2])?;
/// for key in keys.iter() {
///     println!("{key}");
/// }
/// assert_eq!(keys.get(1), Some("c/10/2"));
/// # Ok::<(), zarrs_chunks::Error>(())
/// ```
#[derive(Debug, Clone, PartialEq, Eq, Hash)]
pub struct Keys {
    text: String,
    /// One more than there are keys. They ascend, up to the end of the text.
    offsets: Vec<u64>,
}

impl Keys {
    /// The keys that the library wrote, each from an offset up to the next one.
    pub(crate) fn new(text: Vec<u8>, offsets: Vec<u64>) -> Result<Keys> {
        let text =
            String::from_utf8(text).map_err(|_| Error::of_answer("keys that are no UTF-8"))?;
        let keys = Keys { text, offsets };
        // Each key ends at or after its beginning, and both lie between two characters.
        let are_keys = (0..keys.len()).all(|number| keys.get(number).is_some());
        let ends = (keys.offsets.first().copied(), keys.offsets.last().copied());
        if !are_keys || ends != (Some(0), Some(keys.text.len() as u64)) {
            return Err(Error::of_answer("offsets that are none of keys"));
        }
        Ok(keys)
    }

    /// The text of a single key.
    pub(crate) fn into_text(self) -> String {
        self.text
    }

    /// How many keys there are.
    ///
    /// # Example
    ///
    /// ```
    /// use zarrs_chunks::Encoding;
    ///
    /// let keys = Encoding::new(r#""default""#)?.encode_all(2, &[0, 0, 10, 2])?;
    /// assert_eq!(keys.len(), 2);
    /// # Ok::<(), zarrs_chunks::Error>(())
    /// ```
    #[must_use]
    pub fn len(&self) -> usize {
        self.offsets.len().saturating_sub(1)
    }

    /// Whether there is no key.
    ///
    /// # Example
    ///
    /// ```
    /// use zarrs_chunks::Encoding;
    ///
    /// let keys = Encoding::new(r#""default""#)?.encode_all(2, &[0, 0, 10, 2])?;
    /// assert!(!keys.is_empty());
    /// # Ok::<(), zarrs_chunks::Error>(())
    /// ```
    #[must_use]
    pub fn is_empty(&self) -> bool {
        self.len() == 0
    }

    /// Returns the key with this number, counted from 0; `None` if there is no such key.
    ///
    /// # Example
    ///
    /// ```
    /// use zarrs_chunks::Encoding;
    ///
    /// let keys = Encoding::new(r#""default""#)?.encode_all(2, &[0, 0, 10, 2])?;
    /// assert_eq!((keys.get(1), keys.get(2)), (Some("c/10/2"), None));
    /// # Ok::<(), zarrs_chunks::Error>(())
    /// ```
    #[must_use]
    pub fn get(&self, number: usize) -> Option<&str> {
        let start = *self.offsets.get(number)?;
        let end = *self.offsets.get(number + 1)?;
        self.text.get(usize::try_from(start).ok()?..usize::try_from(end).ok()?)
    }

    /// The keys, one after another.
    ///
    /// # Example
    ///
    /// ```
    /// use zarrs_chunks::Encoding;
    ///
    /// let keys = Encoding::new(r#""default""#)?.encode_all(2, &[0, 0, 10, 2])?;
    /// assert_eq!(keys.iter().collect::<Vec<_>>(), ["c/0/0", "c/10/2"]);
    /// # Ok::<(), zarrs_chunks::Error>(())
    /// ```
    pub fn iter(&self) -> impl Iterator<Item = &str> + '_ {
        (0..self.len()).filter_map(|number| self.get(number))
    }

    /// The text of all keys, without anything between two.
    ///
    /// # Example
    ///
    /// ```
    /// use zarrs_chunks::Encoding;
    ///
    /// let keys = Encoding::new(r#""default""#)?.encode_all(2, &[0, 0, 10, 2])?;
    /// assert_eq!(keys.text(), "c/0/0c/10/2");
    /// # Ok::<(), zarrs_chunks::Error>(())
    /// ```
    #[must_use]
    pub fn text(&self) -> &str {
        &self.text
    }

    /// Where each key begins in the text, in bytes, and at last where the last one ends: one offset
    /// more than there are keys.
    ///
    /// # Example
    ///
    /// ```
    /// use zarrs_chunks::Encoding;
    ///
    /// let keys = Encoding::new(r#""default""#)?.encode_all(2, &[0, 0, 10, 2])?;
    /// assert_eq!(keys.offsets(), [0, 5, 11]);
    /// # Ok::<(), zarrs_chunks::Error>(())
    /// ```
    #[must_use]
    pub fn offsets(&self) -> &[u64] {
        &self.offsets
    }
}

/// How many bytes `count` keys seldom exceed.
pub(crate) fn usual_length(count: usize, dimensionality: usize) -> usize {
    count.saturating_mul(dimensionality.saturating_mul(6).saturating_add(2))
}
