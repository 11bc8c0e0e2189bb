//! How much the tasks of a copy read and write.

use std::ops::Range;

use crate::error::Result;
use crate::grid::Grid;
use crate::questions::{self, Member};
use crate::reader::Reader;
use crate::tasks::TaskOptions;

/// How much the tasks of a copy read and write, and which tasks are in a share:
/// [`Grid::task_counts`] makes it.
///
/// Each count is a list of one factor a dimension. The methods multiply the factors. Only the
/// products are promised.
///
/// # Example
///
/// ```
/// use zarrs_chunks::{Grid, TaskOptions};
///
/// let rows = r#"{"name":"regular","configuration":{"chunk_shape":[1,12]}}"#;
/// let blocks = r#"{"name":"regular","configuration":{"chunk_shape":[4,3]}}"#;
/// let (grid, target) = (Grid::new(&[4, 12], rows)?, Grid::new(&[4, 12], blocks)?);
/// let options = TaskOptions { task_chunks: Some(&[1, 2]), ..TaskOptions::default() };
/// let counts = grid.task_counts(&target, options, (0, 1))?;
/// assert_eq!((counts.tasks(), counts.largest_task()), (Some(2), Some(24)));
/// // Both tasks read each of the four chunks of the source, and use half of it.
/// assert_eq!((counts.chunks_read(), counts.chunks_written()), (Some(8), Some(4)));
/// assert_eq!((counts.elements_decoded(), counts.elements_moved()), (Some(96), Some(48)));
/// # Ok::<(), zarrs_chunks::Error>(())
/// ```
#[derive(Debug, Clone, PartialEq, Eq, Hash)]
#[non_exhaustive]
pub struct TaskCounts {
    /// The chunks of the source that are read, each counted once for each task that reads it.
    pub chunks_read: Vec<u64>,
    /// The chunks of the target that are written, each counted once for each task that writes it.
    pub chunks_written: Vec<u64>,
    /// The elements of the chunks that are read. Each chunk counts whole, with the shape that its
    /// grid has, each time that it is read. `None` stands for a factor past 18446744073709551615.
    pub elements_decoded: Vec<Option<u64>>,
    /// The elements that are copied: the shape of the region.
    pub elements_moved: Vec<u64>,
    /// The elements of the largest buffer.
    pub largest_task: Vec<u64>,
    /// The tasks.
    pub tasks: Vec<u64>,
    /// The number of the share's first task. `None` if it is past 18446744073709551615.
    pub first: Option<u64>,
    /// The number of the task after the share's last one. `None` likewise.
    pub end: Option<u64>,
}

impl TaskCounts {
    pub(crate) fn new(
        source: &Grid,
        target: &Grid,
        options: TaskOptions<'_>,
        share: (u64, u64),
    ) -> Result<TaskCounts> {
        // The counts are the same whichever the encodings are.
        let (encoding, share) = ("\"default\"", [share.0, share.1]);
        let [subset, at, task_chunks, order] = options.members();
        let members = [
            ("chunk_key_encoding", Member::Json(encoding)),
            ("target", Member::Array(target, encoding)),
            ("share", Member::List(&share)),
            subset,
            at,
            task_chunks,
            order,
        ];
        questions::ask(source, "task_counts", &members, task_counts)
    }

    /// Returns how many chunks are read: the product of `chunks_read`. `None` if it has more than
    /// 128 bits.
    #[must_use]
    pub fn chunks_read(&self) -> Option<u128> {
        product(&self.chunks_read)
    }

    /// Returns how many chunks are written: the product of `chunks_written`. `None` if it has more
    /// than 128 bits.
    #[must_use]
    pub fn chunks_written(&self) -> Option<u128> {
        product(&self.chunks_written)
    }

    /// Returns how many elements are decoded: the product of `elements_decoded`. `None` if a factor
    /// isn't known, or if the product has more than 128 bits.
    #[must_use]
    pub fn elements_decoded(&self) -> Option<u128> {
        self.elements_decoded.iter().try_fold(1, |product, factor| times(product, (*factor)?))
    }

    /// Returns how many elements are copied: the product of `elements_moved`. `None` if it has
    /// more than 128 bits.
    #[must_use]
    pub fn elements_moved(&self) -> Option<u128> {
        product(&self.elements_moved)
    }

    /// Returns how many elements the largest buffer has: the product of `largest_task`. `None` if
    /// it has more than 128 bits.
    #[must_use]
    pub fn largest_task(&self) -> Option<u128> {
        product(&self.largest_task)
    }

    /// Returns how many tasks there are: the product of `tasks`. `None` if it has more than 128
    /// bits.
    #[must_use]
    pub fn tasks(&self) -> Option<u128> {
        product(&self.tasks)
    }

    /// Returns the numbers of the share's tasks, in the order in which [`Tasks`](crate::Tasks)
    /// gives them. `None` if one of its two ends is past 18446744073709551615.
    ///
    /// # Example
    ///
    /// ```
    /// use zarrs_chunks::{Encoding, Grid, TaskOptions};
    ///
    /// let three = r#"{"name":"regular","configuration":{"chunk_shape":[3]}}"#;
    /// let two = r#"{"name":"regular","configuration":{"chunk_shape":[2]}}"#;
    /// let (grid, target) = (Grid::new(&[20], three)?, Grid::new(&[20], two)?);
    /// let (encoding, options) = (Encoding::new(r#""v2""#)?, TaskOptions::default());
    /// // The second of four workers.
    /// let share = grid.task_counts(&target, options, (1, 4))?.share().unwrap();
    /// assert_eq!(share, 2..5);
    /// let tasks = grid.tasks(&encoding, &target, &encoding, options)?;
    /// let mut keys = Vec::new();
    /// for task in tasks.skip(share.start as usize).take((share.end - share.start) as usize) {
    ///     keys.push(task?.targets.remove(0).key);
    /// }
    /// assert_eq!(keys, ["2", "3", "4"]);
    /// # Ok::<(), zarrs_chunks::Error>(())
    /// ```
    #[must_use]
    pub fn share(&self) -> Option<Range<u64>> {
        Some(self.first?..self.end?)
    }
}

/// The product of factors, if it has no more than 128 bits.
fn product(factors: &[u64]) -> Option<u128> {
    if factors.contains(&0) {
        return Some(0);
    }
    factors.iter().try_fold(1, |product, factor| times(product, *factor))
}

fn times(product: u128, factor: u64) -> Option<u128> {
    product.checked_mul(factor.into())
}

/// An answer: `{"chunks_read":[..],"chunks_written":[..],"elements_decoded":[..],`
/// `"elements_moved":[..],"largest_task":[..],"share":[..,..],"tasks":[..]}`.
fn task_counts(reader: &mut Reader<'_>) -> Result<TaskCounts> {
    reader.expect("{\"chunks_read\":")?;
    let chunks_read = reader.list()?;
    reader.expect(",\"chunks_written\":")?;
    let chunks_written = reader.list()?;
    reader.expect(",\"elements_decoded\":")?;
    let elements_decoded = reader.list_of(|reader| reader.optional(Reader::number))?;
    reader.expect(",\"elements_moved\":")?;
    let elements_moved = reader.list()?;
    reader.expect(",\"largest_task\":")?;
    let largest_task = reader.list()?;
    reader.expect(",\"share\":[")?;
    let first = reader.optional(Reader::number)?;
    reader.expect(",")?;
    let end = reader.optional(Reader::number)?;
    reader.expect("],\"tasks\":")?;
    let tasks = reader.list()?;
    reader.expect("}")?;
    Ok(TaskCounts {
        chunks_read,
        chunks_written,
        elements_decoded,
        elements_moved,
        largest_task,
        tasks,
        first,
        end,
    })
}

#[cfg(test)]
mod tests {
    use super::{product, task_counts};
    use crate::reader::Reader;

    #[test]
    fn products_have_128_bits() {
        assert_eq!(product(&[]), Some(1));
        assert_eq!(product(&[3, 4, 5]), Some(60));
        assert_eq!(product(&[u64::MAX, u64::MAX]), Some(u128::from(u64::MAX).pow(2)));
        assert_eq!(product(&[1 << 63, 1 << 63, 2]), Some(1 << 127));
        assert_eq!(product(&[1 << 63, 1 << 63, 4]), None);
        assert_eq!(product(&[u64::MAX, u64::MAX, u64::MAX, 0]), Some(0));
    }

    #[test]
    fn answers_are_read_or_are_none() {
        let read = |line: &str, dimensionality| Reader::read(line, dimensionality, task_counts);
        let line = [
            r#"{"chunks_read":[3,1],"chunks_written":[2,1],"elements_decoded":[9,7],"#,
            r#""elements_moved":[4,1],"largest_task":[2,1],"share":[0,1],"tasks":[2,2]}"#,
        ]
        .concat();
        let line = &line[..];
        let found = read(line, 2).unwrap();
        assert_eq!((found.chunks_read(), found.chunks_written()), (Some(3), Some(2)));
        assert_eq!((found.elements_decoded(), found.elements_moved()), (Some(63), Some(4)));
        assert_eq!((found.largest_task(), found.tasks()), (Some(2), Some(4)));
        assert_eq!(found.share(), Some(0..1));
        let found = read(&line.replace("[9,7]", "[9,null]"), 2).unwrap();
        assert_eq!(
            (&found.elements_decoded[..], found.elements_decoded()),
            (&[Some(9), None][..], None)
        );
        for share in ["[null,1]", "[0,null]", "[null,null]"] {
            let found = read(&line.replace("[0,1]", share), 2).unwrap();
            assert_eq!(found.share(), None, "{share}");
        }
        for (from, to) in [
            ("[4,1]", "null"),
            ("[3,1]", "[3,null]"),
            ("[9,7]", "[9]"),
            ("[9,7]", "null"),
            ("[0,1]", "null"),
            ("[0,1]", "[0]"),
            ("tasks", "lines"),
            ("}", ""),
        ] {
            assert!(read(&line.replacen(from, to, 1), 2).is_err(), "{from} {to}");
        }
        assert!(read(line, 1).is_err());
    }
}
