//! Boxes.

use std::ops::Range;

use crate::error::{Error, Result};
use crate::memory::{copy_of, zeros};

/// A box: a range of numbers along each dimension. It is a box of elements, or one of chunks.
///
/// Its start and its shape have as many numbers each, and no range ends past 18446744073709551615.
/// A box is empty if one of its ranges is empty; a box without dimensions isn't.
///
/// # Example
///
/// ```
/// use zarrs_chunks::ArraySubset;
///
/// let subset = ArraySubset::new_with_start_shape(vec![3, 2], vec![3, 4])?;
/// assert_eq!(subset, ArraySubset::new_with_ranges(&[3..6, 2..6])?);
/// # Ok::<(), zarrs_chunks::Error>(())
/// ```
#[derive(Debug, Clone, PartialEq, Eq, Hash)]
pub struct ArraySubset {
    start: Vec<u64>,
    shape: Vec<u64>,
}

impl ArraySubset {
    /// Returns the box that begins at `start` and has `shape` numbers along each dimension.
    ///
    /// # Errors
    ///
    /// [`Error::WrongLength`] if the two lists aren't of one length; [`Error::NotABox`] if an
    /// end lies past 18446744073709551615.
    ///
    /// # Example
    ///
    /// ```
    /// use zarrs_chunks::{ArraySubset, Error};
    ///
    /// let past = ArraySubset::new_with_start_shape(vec![u64::MAX - 3], vec![4]);
    /// assert_eq!(past.unwrap_err(), Error::NotABox { which: 0 });
    /// let subset = ArraySubset::new_with_start_shape(vec![u64::MAX - 3], vec![3])?;
    /// assert_eq!(subset.dimensionality(), 1);
    /// # Ok::<(), zarrs_chunks::Error>(())
    /// ```
    pub fn new_with_start_shape(start: Vec<u64>, shape: Vec<u64>) -> Result<ArraySubset> {
        if shape.len() != start.len() {
            let (given, wanted) = (shape.len(), start.len());
            return Err(Error::WrongLength { argument: "shape", given, wanted });
        }
        if start.iter().zip(&shape).any(|(start, size)| start.checked_add(*size).is_none()) {
            return Err(Error::NotABox { which: 0 });
        }
        Ok(ArraySubset { start, shape })
    }

    /// The box of these ranges. A range that ends before its start holds nothing.
    ///
    /// # Errors
    ///
    /// [`Error::OutOfMemory`].
    ///
    /// # Example
    ///
    /// ```
    /// use zarrs_chunks::ArraySubset;
    ///
    /// let subset = ArraySubset::new_with_ranges(&[3..6, 2..6])?;
    /// assert_eq!((subset.start(), subset.shape()), (&[3, 2][..], &[3, 4][..]));
    /// # Ok::<(), zarrs_chunks::Error>(())
    /// ```
    pub fn new_with_ranges(ranges: &[Range<u64>]) -> Result<ArraySubset> {
        let (mut start, mut shape) = (zeros(ranges.len())?, zeros(ranges.len())?);
        for ((start, size), range) in start.iter_mut().zip(&mut shape).zip(ranges) {
            (*start, *size) = (range.start, range.end.saturating_sub(range.start));
        }
        Ok(ArraySubset { start, shape })
    }

    /// The box that the library answers.
    pub(crate) fn of_answer(start: Vec<u64>, shape: Vec<u64>) -> Result<ArraySubset> {
        let subset = ArraySubset::new_with_start_shape(start, shape);
        subset.map_err(|_| Error::of_answer("a box that is none"))
    }

    /// The same for numbers of which one half is the start, and the other the shape.
    pub(crate) fn of_numbers(numbers: &[u64]) -> Result<ArraySubset> {
        let (start, shape) = numbers.split_at(numbers.len() / 2);
        ArraySubset::of_answer(copy_of(start)?, copy_of(shape)?)
    }

    /// The start and the shape.
    pub(crate) fn into_lists(self) -> (Vec<u64>, Vec<u64>) {
        (self.start, self.shape)
    }

    /// The number of dimensions.
    ///
    /// # Example
    ///
    /// ```
    /// use zarrs_chunks::ArraySubset;
    ///
    /// let subset = ArraySubset::new_with_start_shape(vec![3, 2], vec![3, 4])?;
    /// assert_eq!(subset.dimensionality(), 2);
    /// # Ok::<(), zarrs_chunks::Error>(())
    /// ```
    #[must_use]
    pub fn dimensionality(&self) -> usize {
        self.start.len()
    }

    /// The first number along each dimension.
    ///
    /// # Example
    ///
    /// ```
    /// use zarrs_chunks::ArraySubset;
    ///
    /// let subset = ArraySubset::new_with_start_shape(vec![3, 2], vec![3, 4])?;
    /// assert_eq!(subset.start(), [3, 2]);
    /// # Ok::<(), zarrs_chunks::Error>(())
    /// ```
    #[must_use]
    pub fn start(&self) -> &[u64] {
        &self.start
    }

    /// How many numbers there are along each dimension.
    ///
    /// # Example
    ///
    /// ```
    /// use zarrs_chunks::ArraySubset;
    ///
    /// let subset = ArraySubset::new_with_start_shape(vec![3, 2], vec![3, 4])?;
    /// assert_eq!(subset.shape(), [3, 4]);
    /// # Ok::<(), zarrs_chunks::Error>(())
    /// ```
    #[must_use]
    pub fn shape(&self) -> &[u64] {
        &self.shape
    }

    /// Whether the box holds nothing.
    ///
    /// # Example
    ///
    /// ```
    /// use zarrs_chunks::ArraySubset;
    ///
    /// assert!(ArraySubset::new_with_ranges(&[3..6, 2..2])?.is_empty());
    /// assert!(!ArraySubset::new_with_ranges(&[])?.is_empty());
    /// # Ok::<(), zarrs_chunks::Error>(())
    /// ```
    #[must_use]
    pub fn is_empty(&self) -> bool {
        self.shape.contains(&0)
    }

    /// The range along each dimension.
    ///
    /// # Example
    ///
    /// ```
    /// use zarrs_chunks::ArraySubset;
    ///
    /// let subset = ArraySubset::new_with_start_shape(vec![3, 2], vec![3, 4])?;
    /// assert_eq!(subset.ranges().collect::<Vec<_>>(), [3..6, 2..6]);
    /// # Ok::<(), zarrs_chunks::Error>(())
    /// ```
    #[must_use]
    pub fn ranges(&self) -> impl ExactSizeIterator<Item = Range<u64>> + '_ {
        // No sum is past the greatest number.
        self.start.iter().zip(&self.shape).map(|(start, size)| *start..*start + *size)
    }
}
