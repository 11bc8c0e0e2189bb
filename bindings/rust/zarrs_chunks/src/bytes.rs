//! Which bytes of an uncompressed chunk hold the elements of a box.

use std::iter::FusedIterator;
use std::num::NonZeroU64;
use std::ops::Range;

use crate::error::Result;
use crate::memory::{zeros, Text};
use crate::questions;
use crate::reader::Reader;
use crate::subset::ArraySubset;

/// In which order the elements of a chunk are stored.
#[derive(Debug, Clone, Copy, PartialEq, Eq, Hash)]
pub enum MemoryOrder {
    /// Row-major: along the last dimension one element follows another. The codec `bytes` writes a
    /// chunk in this order.
    C,
    /// Column-major: along the first dimension one element follows another. The codec
    /// `bytes` after the codec `transpose` with all dimensions reversed writes a chunk in this
    /// order, and so does Zarr V2 if `order` is `F`.
    F,
}

/// Ranges of bytes of one length: [`byte_ranges`] makes them.
///
/// Their number is the product of `counts`. For each list of numbers `k`, with `k[d]` below
/// `counts[d]`, a range begins at `first` + `k[0]` * `strides[0]` + `k[1]` * `strides[1]` and so
/// on.
#[derive(Debug, Clone, PartialEq, Eq, Hash)]
#[non_exhaustive]
pub struct ByteRanges {
    /// Where the first range begins, counted from the object's first byte.
    pub first: u64,
    /// How many bytes each range has.
    pub length: u64,
    /// How many ranges follow one another along each dimension of ranges, the outermost first.
    pub counts: Vec<u64>,
    /// How many bytes there are from the beginning of one range to the beginning of the next along
    /// each of them.
    pub strides: Vec<u64>,
}

impl ByteRanges {
    /// Returns the ranges, one after another: they ascend, and no two can be joined. The first one
    /// is made at once, however many there are.
    ///
    /// # Errors
    ///
    /// [`Error::OutOfMemory`](crate::Error::OutOfMemory).
    pub fn ranges(&self) -> Result<Ranges<'_>> {
        let steps = zeros(self.counts.len())?;
        Ok(Ranges { of: self, steps, ended: self.counts.contains(&0) })
    }
}

/// Ranges of bytes, one after another: [`ByteRanges::ranges`] makes it.
#[derive(Debug, Clone)]
pub struct Ranges<'a> {
    of: &'a ByteRanges,
    /// How many ranges along each dimension come before the next one.
    steps: Vec<u64>,
    ended: bool,
}

impl Ranges<'_> {
    /// Goes to the next range, the last dimension first.
    fn step(&mut self) {
        for (step, count) in self.steps.iter_mut().zip(&self.of.counts).rev() {
            *step += 1;
            if *step < *count {
                return;
            }
            *step = 0;
        }
        self.ended = true;
    }
}

impl Iterator for Ranges<'_> {
    type Item = Range<u64>;

    fn next(&mut self) -> Option<Range<u64>> {
        if self.ended {
            return None;
        }
        let mut start = self.of.first;
        for (step, stride) in self.steps.iter().zip(&self.of.strides) {
            start = start.saturating_add(step.saturating_mul(*stride));
        }
        self.step();
        Some(start..start.saturating_add(self.of.length))
    }
}

impl FusedIterator for Ranges<'_> {}

/// Returns which bytes of a chunk's object hold the elements of a box of the chunk. The box's
/// indices are counted from the chunk's first element. The object is the chunk's elements, one
/// after the other in `order`, each in `item_size` bytes, and nothing else: it isn't compressed.
///
/// The bytes of the ranges, one range after the other, are the box's elements in the chunk's order.
/// An empty box has no range. `None` if the box ends past the chunk, or if it isn't empty and the
/// object would be longer than 18446744073709551615 bytes.
///
/// # Errors
///
/// [`Error::Refused`](crate::Error::Refused) if the box has another number of dimensions than
/// the chunk; else as [`answer`](crate::answer).
///
/// # Example
///
/// ```
/// use std::num::NonZeroU64;
/// use zarrs_chunks::{byte_ranges, ArraySubset, MemoryOrder};
///
/// // Of a chunk of 4 x 5 elements of two bytes, the last three of the second and the third row.
/// let elements = ArraySubset::new_with_ranges(&[1..3, 2..5])?;
/// let item_size = NonZeroU64::new(2).unwrap();
/// let ranges = byte_ranges(&[4, 5], &elements, item_size, MemoryOrder::C)?.unwrap();
/// assert_eq!(ranges.ranges()?.collect::<Vec<_>>(), [14..20, 24..30]);
/// # Ok::<(), zarrs_chunks::Error>(())
/// ```
pub fn byte_ranges(
    chunk_shape: &[u64],
    elements: &ArraySubset,
    item_size: NonZeroU64,
    order: MemoryOrder,
) -> Result<Option<ByteRanges>> {
    let mut text = Text::default();
    text.add(format_args!("{{\"call\":\"byte_ranges\",\"chunk_shape\":"))?;
    text.add_list(chunk_shape)?;
    text.add(format_args!(",\"of\":["))?;
    text.add_list(elements.start())?;
    text.add(format_args!(","))?;
    text.add_list(elements.shape())?;
    text.add(format_args!("],\"item_size\":{item_size},\"memory_order\":\"{order:?}\"}}"))?;
    let line = questions::answer_to(text.as_str())?;
    Reader::read(&line, chunk_shape.len(), |reader| reader.optional(ranges_in))
}

/// An answer: `{"counts":[..],"first":..,"length":..,"strides":[..]}`.
fn ranges_in(reader: &mut Reader<'_>) -> Result<ByteRanges> {
    reader.expect("{\"counts\":")?;
    let counts = reader.numbers()?;
    reader.expect(",\"first\":")?;
    let first = reader.number()?;
    reader.expect(",\"length\":")?;
    let length = reader.number()?;
    reader.expect(",\"strides\":")?;
    let strides = reader.numbers()?;
    reader.expect("}")?;
    Ok(ByteRanges { first, length, counts, strides })
}

#[cfg(test)]
mod tests {
    use super::{ranges_in, ByteRanges};
    use crate::reader::Reader;

    #[test]
    fn answers_are_read_or_are_none() {
        let read = |line: &str| Reader::read(line, 3, ranges_in);
        let line = r#"{"counts":[2,2],"first":5,"length":2,"strides":[12,4]}"#;
        let found = read(line).unwrap();
        let all: Vec<_> = found.ranges().unwrap().collect();
        assert_eq!(all, [5..7, 9..11, 17..19, 21..23]);
        for (from, to) in [("[2,2]", "2"), ("5", "null"), ("first", "begin"), ("}", "")] {
            assert!(read(&line.replacen(from, to, 1)).is_err(), "{from} {to}");
        }
    }

    #[test]
    fn there_may_be_one_range_or_none() {
        let of = |counts: &[u64], strides: &[u64]| {
            let (counts, strides) = (counts.to_vec(), strides.to_vec());
            let ranges = ByteRanges { first: 3, length: 4, counts, strides };
            let all: Vec<_> = ranges.ranges().unwrap().collect();
            all
        };
        assert_eq!(of(&[], &[]), [3..7]);
        assert_eq!(of(&[0], &[0]), []);
        assert_eq!(of(&[2, 0], &[9, 1]), []);
    }
}
