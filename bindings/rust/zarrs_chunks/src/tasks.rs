//! Copies of arrays, or of regions of them, as tasks.

use std::fmt;
use std::iter::FusedIterator;
use std::vec;

use crate::answers::{LONGEST, USUAL};
use crate::encoding::Encoding;
use crate::error::{Error, Result};
use crate::grid::Grid;
use crate::memory::{copy_of, push, zeros};
use crate::pages::{self, Pages};
use crate::questions::{self, Member};
use crate::reader::Reader;
use crate::subset::ArraySubset;

/// How many bytes a page of several tasks has at most as text, and for how many bytes there is room
/// at first for each task.
const PAGE: usize = 1 << 18;
const USUAL_TASK: usize = 512;

/// Whose chunks a task takes.
///
/// # Example
///
/// ```
/// use zarrs_chunks::{Encoding, Grid, TaskOptions, TaskOrder};
///
/// let three = r#"{"name":"regular","configuration":{"chunk_shape":[3]}}"#;
/// let two = r#"{"name":"regular","configuration":{"chunk_shape":[2]}}"#;
/// let (grid, target) = (Grid::new(&[4], three)?, Grid::new(&[4], two)?);
/// let encoding = Encoding::new(r#""default""#)?;
/// let options = TaskOptions { order: TaskOrder::Source, ..TaskOptions::default() };
/// let task = grid.tasks(&encoding, &target, &encoding, options)?.next().unwrap()?;
/// assert_eq!((task.sources.len(), task.targets.len()), (1, 2));
/// // The second chunk of the target is written by both tasks, so they must take turns.
/// assert_eq!((task.targets[0].whole, task.targets[1].whole), (true, false));
/// # Ok::<(), zarrs_chunks::Error>(())
/// ```
#[derive(Debug, Clone, Copy, PartialEq, Eq, Hash, Default)]
pub enum TaskOrder {
    /// A task takes chunks of the target, and no two tasks write one chunk.
    #[default]
    Target,
    /// A task takes chunks of the source, and no two tasks read one chunk.
    Source,
}

/// What is copied, and by which tasks. By default each task writes one chunk of the target, and the
/// whole array is copied to the first index of the target's array.
///
/// # Example
///
/// ```
/// use zarrs_chunks::{ArraySubset, Grid, TaskOptions};
///
/// let three = r#"{"name":"regular","configuration":{"chunk_shape":[3]}}"#;
/// let five = r#"{"name":"regular","configuration":{"chunk_shape":[5]}}"#;
/// let (grid, target) = (Grid::new(&[7], three)?, Grid::new(&[12], five)?);
/// // The elements 1 to 6 go to the places 4 to 9.
/// let subset = ArraySubset::new_with_ranges(&[1..7])?;
/// let mut options = TaskOptions { subset: Some(&subset), at: Some(&[4]), ..Default::default() };
/// assert_eq!(grid.task_counts(&target, options, (0, 1))?.tasks(), Some(2));
/// options.task_chunks = Some(&[2]);
/// assert_eq!(grid.task_counts(&target, options, (0, 1))?.tasks(), Some(1));
/// # Ok::<(), zarrs_chunks::Error>(())
/// ```
#[derive(Debug, Clone, Copy, PartialEq, Eq, Hash, Default)]
pub struct TaskOptions<'a> {
    /// The region: the box of the source's elements that is copied. Default: the whole array.
    pub subset: Option<&'a ArraySubset>,
    /// The index in the target's array at which the region begins. Default: 0 in each dimension.
    pub at: Option<&'a [u64]>,
    /// How many neighbouring chunks a task takes along each dimension, from 1 on. Groups are
    /// counted from the first chunk of the array. Default: 1 in each dimension.
    pub task_chunks: Option<&'a [u64]>,
    /// Whose chunks a task takes.
    pub order: TaskOrder,
}

impl<'a> TaskOptions<'a> {
    /// The members of a question that say so.
    pub(crate) fn members(self) -> [(&'static str, Member<'a>); 4] {
        let order = match self.order {
            TaskOrder::Target => Member::Absent,
            TaskOrder::Source => Member::Json("\"source\""),
        };
        [
            ("subset", self.subset.map_or(Member::Absent, Member::Box)),
            ("at", self.at.map_or(Member::Absent, Member::List)),
            ("task_chunks", self.task_chunks.map_or(Member::Absent, Member::List)),
            ("order", order),
        ]
    }
}

/// What a task reads of one chunk of the source. Both boxes have one shape, and their elements
/// correspond in order. [`Task`] has an example.
#[derive(Debug, Clone, PartialEq, Eq, Hash)]
#[non_exhaustive]
pub struct Source {
    /// The chunk.
    pub chunk: Vec<u64>,
    /// The key of the chunk.
    pub key: String,
    /// The shape of the chunk, as its grid has it.
    pub shape: Vec<u64>,
    /// The elements that are read, as a box of the chunk.
    pub in_chunk: ArraySubset,
    /// The place of these elements, as a box of the buffer.
    pub in_buffer: ArraySubset,
}

/// What a task writes to one chunk of the target. Both boxes have one shape, and their elements
/// correspond in order. [`Task`] has an example.
#[derive(Debug, Clone, PartialEq, Eq, Hash)]
#[non_exhaustive]
pub struct Destination {
    /// The chunk.
    pub chunk: Vec<u64>,
    /// The key of the chunk.
    pub key: String,
    /// The shape of the chunk, as its grid has it.
    pub shape: Vec<u64>,
    /// The elements that are written, as a box of the chunk.
    pub in_chunk: ArraySubset,
    /// The place of these elements, as a box of the buffer.
    pub in_buffer: ArraySubset,
    /// Whether these are all elements of the array that the chunk holds. If not, the chunk must be
    /// read before it is written.
    pub whole: bool,
}

/// A step of a copy: it fills a buffer from chunks of the source, and writes it to chunks of the
/// target.
///
/// # Example
///
/// ```
/// use zarrs_chunks::{ArraySubset, Encoding, Grid, TaskOptions};
///
/// let three = r#"{"name":"regular","configuration":{"chunk_shape":[3]}}"#;
/// let two = r#"{"name":"regular","configuration":{"chunk_shape":[2]}}"#;
/// let (grid, target) = (Grid::new(&[4], three)?, Grid::new(&[4], two)?);
/// let encodings = [Encoding::new(r#""default""#)?, Encoding::new(r#""v2""#)?];
/// let tasks = grid.tasks(&encodings[0], &target, &encodings[1], TaskOptions::default())?;
/// let task = tasks.last().unwrap()?;
/// assert_eq!((task.buffer, task.sources.len(), task.targets.len()), (vec![2], 2, 1));
/// let source = &task.sources[1];
/// assert_eq!((&source.key[..], &source.shape), ("c/1", &vec![3]));
/// assert_eq!(source.in_chunk, ArraySubset::new_with_ranges(&[0..1])?);
/// assert_eq!(source.in_buffer, ArraySubset::new_with_ranges(&[1..2])?);
/// let target = &task.targets[0];
/// assert_eq!((&target.key[..], &target.shape, target.whole), ("1", &vec![2], true));
/// assert_eq!((&target.in_chunk, &target.in_buffer), (&target.in_buffer, &target.in_chunk));
/// # Ok::<(), zarrs_chunks::Error>(())
/// ```
#[derive(Debug, Clone, PartialEq, Eq, Hash)]
#[non_exhaustive]
pub struct Task {
    /// The shape of the buffer.
    pub buffer: Vec<u64>,
    /// What is read of each chunk of the source, in row-major order of the chunks.
    pub sources: Vec<Source>,
    /// What is written to each chunk of the target, in row-major order of the chunks.
    pub targets: Vec<Destination>,
}

/// The tasks of a copy, in row-major order of the groups of chunks that they take:
/// [`Grid::tasks`] makes it.
///
/// Tasks are read page by page, so at most some thousands of chunks are in memory. A page has at
/// most 262144 bytes as text, but a task that is longer has a page of its own. A page makes both
/// grids again, which takes milliseconds if they have very many listed edges.
/// [`nth`](Iterator::nth), and so `skip` and `step_by`, takes no time for the tasks that are left
/// out.
///
/// An item is an error if there is too little memory for it, or if it has more than 1073741824
/// bytes as text. An error is the last item.
///
/// # Example
///
/// ```
/// use zarrs_chunks::{Encoding, Grid, TaskOptions};
///
/// let three = r#"{"name":"regular","configuration":{"chunk_shape":[3]}}"#;
/// let two = r#"{"name":"regular","configuration":{"chunk_shape":[2]}}"#;
/// let (grid, target) = (Grid::new(&[4], three)?, Grid::new(&[4], two)?);
/// let encodings = [Encoding::new(r#""default""#)?, Encoding::new(r#""v2""#)?];
/// let mut tasks = grid.tasks(&encodings[0], &target, &encodings[1], TaskOptions::default())?;
/// let second = tasks.nth(1).unwrap()?;
/// let keys: Vec<_> = second.sources.iter().map(|source| &source.key[..]).collect();
/// assert_eq!((keys, &second.targets[0].key[..]), (vec!["c/0", "c/1"], "1"));
/// assert!(tasks.next().is_none());
/// # Ok::<(), zarrs_chunks::Error>(())
/// ```
#[derive(Clone)]
pub struct Tasks<'a> {
    source: Stored<'a>,
    target: Stored<'a>,
    options: TaskOptions<'a>,
    pages: Pages,
    /// The page's tasks that were not given yet.
    page: vec::IntoIter<Task>,
}

/// A grid and an encoding, by which an array is stored.
type Stored<'a> = (&'a Grid, &'a Encoding);

impl<'a> Tasks<'a> {
    /// Returns all tasks of a copy, or the library's refusal.
    pub(crate) fn new(
        source: Stored<'a>,
        target: Stored<'a>,
        options: TaskOptions<'a>,
    ) -> Result<Tasks<'a>> {
        // A task has a buffer and at least two pieces, of six lists each.
        let numbers = source.0.dimensionality().saturating_mul(13);
        let (pages, page) = (Pages::new(0, numbers), Vec::new().into_iter());
        let mut tasks = Tasks { source, target, options, pages, page };
        tasks.read(0, 0)?;
        tasks.pages = Pages::new(tasks.groups()?, numbers);
        Ok(tasks)
    }

    /// Returns how many groups hold some of the region, which lies in both arrays; and
    /// 18446744073709551615 if there are more.
    fn groups(&self) -> Result<u64> {
        let (source, target, options) = (self.source.0, self.target.0, self.options);
        let zeros = zeros(source.dimensionality())?;
        let whole = (&zeros[..], source.array_shape());
        let (start, shape) =
            options.subset.map_or(whole, |subset| (subset.start(), subset.shape()));
        let (grid, start) = match options.order {
            TaskOrder::Target => (target, options.at.unwrap_or(&zeros)),
            TaskOrder::Source => (source, start),
        };
        let region = ArraySubset::of_answer(copy_of(start)?, copy_of(shape)?)?;
        let chunks = grid.chunks_in_array_subset(&region)?;
        let chunks = chunks.ok_or_else(|| Error::of_answer("a region that has no cover"))?;
        if chunks.is_empty() {
            return Ok(0);
        }
        let mut count = 1_u64;
        for (axis, chunks) in chunks.ranges().enumerate() {
            let each = options.task_chunks.map_or(1, |numbers| numbers[axis]);
            count = count.saturating_mul((chunks.end - 1) / each - chunks.start / each + 1);
        }
        Ok(count)
    }

    /// Returns how many tasks are left to give. At most 18446744073709551615 tasks of a copy are
    /// given: to reach the others, copy a smaller region.
    ///
    /// # Example
    ///
    /// ```
    /// use zarrs_chunks::{Encoding, Grid, TaskOptions};
    ///
    /// let three = r#"{"name":"regular","configuration":{"chunk_shape":[3]}}"#;
    /// let two = r#"{"name":"regular","configuration":{"chunk_shape":[2]}}"#;
    /// let shape = [1_000_000_000_000];
    /// let (grid, target) = (Grid::new(&shape, three)?, Grid::new(&shape, two)?);
    /// let encoding = Encoding::new(r#""v2""#)?;
    /// let mut tasks = grid.tasks(&encoding, &target, &encoding, TaskOptions::default())?;
    /// assert_eq!(tasks.len(), 500_000_000_000);
    /// let last = tasks.nth(499_999_999_999).unwrap()?;
    /// assert_eq!((&last.targets[0].key[..], tasks.len()), ("499999999999", 0));
    /// # Ok::<(), zarrs_chunks::Error>(())
    /// ```
    #[must_use]
    pub fn len(&self) -> u64 {
        self.pages.left()
    }

    /// Returns whether no task is left.
    ///
    /// # Example
    ///
    /// ```
    /// use zarrs_chunks::{Encoding, Grid, TaskOptions};
    ///
    /// let chunk_grid = r#"{"name":"regular","configuration":{"chunk_shape":[4,3]}}"#;
    /// let (grid, encoding) = (Grid::new(&[6, 0], chunk_grid)?, Encoding::new(r#""default""#)?);
    /// assert!(grid.tasks(&encoding, &grid, &encoding, TaskOptions::default())?.is_empty());
    /// # Ok::<(), zarrs_chunks::Error>(())
    /// ```
    #[must_use]
    pub fn is_empty(&self) -> bool {
        self.len() == 0
    }

    /// Goes to the page of `wanted` tasks from the task `first` on. If they are longer than a page,
    /// the next page has fewer.
    fn turn(&mut self, first: u64, wanted: usize) -> Result<()> {
        match self.read(first, wanted) {
            Ok(page) => {
                let has_more = first.saturating_add(wanted as u64) < self.pages.in_all();
                if page.tasks.len() != wanted || page.has_more != has_more {
                    return Err(Error::of_answer("another number of tasks than there are"));
                }
                self.page = page.tasks.into_iter();
                self.pages.turn(wanted, wanted);
                // Twice as many are likely to be longer than a page.
                if page.length > PAGE / 2 {
                    self.pages.limit(wanted);
                }
                Ok(())
            }
            Err(Error::TooLong { .. }) if wanted > 1 => {
                self.pages.limit(wanted / 2);
                Ok(())
            }
            Err(error) => Err(error),
        }
    }

    /// Asks for `wanted` tasks at most, from the task `first` on.
    fn read(&self, first: u64, wanted: usize) -> Result<Page> {
        let (grid, encoding) = self.source;
        let [subset, at, task_chunks, order] = self.options.members();
        let members = [
            ("chunk_key_encoding", Member::Json(encoding.chunk_key_encoding())),
            ("target", Member::Array(self.target.0, self.target.1.chunk_key_encoding())),
            ("items", Member::Number(wanted as u64)),
            ("first", Member::Number(first)),
            subset,
            at,
            task_chunks,
            order,
        ];
        let usual = (wanted * USUAL_TASK).clamp(USUAL, PAGE);
        let room = (usual, if wanted > 1 { PAGE } else { LONGEST });
        let line = questions::line_within(grid, "tasks", &members, room)?;
        let mut tasks = Vec::new();
        let (_, has_more) = Reader::read(&line, grid.dimensionality(), |reader| {
            reader.items(|reader| push(&mut tasks, task(reader)?))
        })?;
        Ok(Page { tasks, has_more, length: line.len() })
    }
}

/// The library's answer: the tasks, whether more follow, and how many bytes it has.
struct Page {
    tasks: Vec<Task>,
    has_more: bool,
    length: usize,
}

impl Iterator for Tasks<'_> {
    type Item = Result<Task>;

    fn next(&mut self) -> Option<Result<Task>> {
        loop {
            if let Some(task) = self.page.next() {
                self.pages.take();
                return Some(Ok(task));
            }
            let (first, wanted) = self.pages.wanted()?;
            if let Err(error) = self.turn(first, wanted) {
                self.pages.end();
                return Some(Err(error));
            }
        }
    }

    fn size_hint(&self) -> (usize, Option<usize>) {
        pages::size_hint(self.pages.left())
    }

    fn nth(&mut self, count: usize) -> Option<Result<Task>> {
        self.pages.skip(count);
        if let Some(last) = count.checked_sub(1) {
            self.page.nth(last);
        }
        self.next()
    }
}

impl FusedIterator for Tasks<'_> {}

impl fmt::Debug for Tasks<'_> {
    fn fmt(&self, formatter: &mut fmt::Formatter<'_>) -> fmt::Result {
        let mut shown = formatter.debug_struct("Tasks");
        shown.field("source", &self.source).field("target", &self.target);
        shown.field("options", &self.options).field("len", &self.len()).finish()
    }
}

/// An item: `{"buffer":[..],"from":[..],"to":[..]}`.
fn task(reader: &mut Reader<'_>) -> Result<Task> {
    let (mut sources, mut targets) = (Vec::new(), Vec::new());
    reader.expect("{\"buffer\":")?;
    let buffer = reader.list()?;
    reader.expect(",\"from\":")?;
    reader.each(|reader| {
        push(&mut sources, source(reader)?)?;
        reader.expect("}")
    })?;
    reader.expect(",\"to\":")?;
    reader.each(|reader| push(&mut targets, destination(reader)?))?;
    reader.expect("}")?;
    Ok(Task { buffer, sources, targets })
}

/// One of `from`, but for the brace at its end:
/// `{"chunk":[..],"in_buffer":[..],"in_chunk":[..],"key":"..","shape":[..]`.
fn source(reader: &mut Reader<'_>) -> Result<Source> {
    reader.expect("{\"chunk\":")?;
    let chunk = reader.list()?;
    reader.expect(",\"in_buffer\":")?;
    let in_buffer = reader.subset()?;
    reader.expect(",\"in_chunk\":")?;
    let in_chunk = reader.subset()?;
    reader.expect(",\"key\":")?;
    let key = reader.text()?;
    reader.expect(",\"shape\":")?;
    let shape = reader.list()?;
    Ok(Source { chunk, key, shape, in_chunk, in_buffer })
}

/// One of `to`, which has the same members and then `whole`.
fn destination(reader: &mut Reader<'_>) -> Result<Destination> {
    let Source { chunk, key, shape, in_chunk, in_buffer } = source(reader)?;
    reader.expect(",\"whole\":")?;
    let whole = reader.truth()?;
    reader.expect("}")?;
    Ok(Destination { chunk, key, shape, in_chunk, in_buffer, whole })
}

#[cfg(test)]
mod tests {
    use super::task;
    use crate::reader::Reader;

    #[test]
    fn tasks_are_read_or_are_none() {
        let read = |line: &str| Reader::read(line, 1, task);
        let line = [
            r#"{"buffer":[2],"from":[{"chunk":[7],"in_buffer":[[0],[2]],"in_chunk":[[1],[2]],"#,
            r#""key":"c/7","shape":[3]}],"to":[{"chunk":[9],"in_buffer":[[0],[1]],"#,
            r#""in_chunk":[[4],[1]],"key":"9","shape":[5],"whole":false},{"chunk":[10],"#,
            r#""in_buffer":[[1],[1]],"in_chunk":[[0],[1]],"key":"10","shape":[1],"whole":true}]}"#,
        ]
        .concat();
        let found = read(&line).unwrap();
        assert_eq!((found.buffer, found.sources.len(), found.targets.len()), (vec![2], 1, 2));
        let (source, target) = (&found.sources[0], &found.targets[0]);
        assert_eq!((&source.chunk[..], &source.key[..]), (&[7][..], "c/7"));
        assert_eq!((&target.chunk[..], &target.key[..]), (&[9][..], "9"));
        assert_eq!((&source.shape[..], &target.shape[..]), (&[3][..], &[5][..]));
        assert_eq!((source.in_buffer.start(), source.in_chunk.start()), (&[0][..], &[1][..]));
        assert_eq!((target.in_buffer.start(), target.in_chunk.start()), (&[0][..], &[4][..]));
        assert_eq!((source.in_chunk.shape(), target.in_chunk.shape()), (&[2][..], &[1][..]));
        assert_eq!((target.whole, found.targets[1].whole), (false, true));
        for (from, to) in [
            ("{\"buffer\":[2],", "{"),
            ("[2]", "[2,2]"),
            ("[7]", "[]"),
            ("[3]}", "[3],\"whole\":true}"),
            (",\"whole\":false", ""),
            ("false", "null"),
            ("in_chunk", "in_target"),
            ("true}]}", "true}]"),
        ] {
            assert!(read(&line.replacen(from, to, 1)).is_err(), "{from} {to}");
        }
        assert!(Reader::read(&line, 2, task).is_err());
    }
}
