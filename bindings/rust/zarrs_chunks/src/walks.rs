//! Walks over the chunks of a grid.

use std::fmt;
use std::iter::FusedIterator;

use crate::error::{Error, Result};
use crate::grid::Grid;
use crate::memory::copy_of;
use crate::pages::{self, Pages};
use crate::questions::{self, Member};
use crate::reader::Reader;
use crate::subset::ArraySubset;

/// What an item of a walk is: by which call the library gives it, and how many lists it has.
#[derive(Debug, Clone, Copy, PartialEq, Eq)]
enum Kind {
    Chunk,
    Subset,
    ChunkAndSubset,
}

impl Kind {
    fn call(self) -> &'static str {
        match self {
            Kind::Chunk => "iter_chunk_indices",
            Kind::Subset => "iter_chunk_subsets",
            Kind::ChunkAndSubset => "iter_chunk_indices_and_subsets",
        }
    }

    fn lists(self) -> usize {
        match self {
            Kind::Chunk => 1,
            Kind::Subset => 2,
            Kind::ChunkAndSubset => 3,
        }
    }

    /// Reads an item, and appends its numbers to others.
    fn read(self, reader: &mut Reader<'_>, numbers: &mut Vec<u64>) -> Result<()> {
        match self {
            Kind::Chunk => reader.list_onto(numbers),
            Kind::Subset => {
                reader.expect("[")?;
                reader.list_onto(numbers)?;
                reader.expect(",")?;
                reader.list_onto(numbers)?;
                reader.expect("]")
            }
            Kind::ChunkAndSubset => {
                reader.expect("[")?;
                reader.list_onto(numbers)?;
                reader.expect(",")?;
                Kind::Subset.read(reader, numbers)?;
                reader.expect("]")
            }
        }
    }
}

/// A walk that is read page by page.
#[derive(Clone)]
struct Walk<'a> {
    grid: &'a Grid,
    kind: Kind,
    pages: Pages,
    /// The numbers of the page's items, one after another.
    page: Vec<u64>,
}

impl<'a> Walk<'a> {
    fn new(grid: &'a Grid, kind: Kind) -> Walk<'a> {
        let in_all = pages::count_of(grid.grid_shape());
        let pages = Pages::new(in_all, grid.dimensionality().saturating_mul(kind.lists()));
        Walk { grid, kind, pages, page: Vec::new() }
    }

    /// The next item, which is made of its numbers.
    fn next<T>(&mut self, make: impl Fn(&[u64]) -> Result<T>) -> Option<Result<T>> {
        let item = loop {
            if let Some(number) = self.pages.take() {
                let length = self.kind.lists() * self.grid.dimensionality();
                let begin = number * length;
                break make(&self.page[begin..begin + length]);
            }
            let (first, wanted) = self.pages.wanted()?;
            match self.turn(first, wanted) {
                Ok(()) => {}
                Err(error) => break Err(error),
            }
        };
        if item.is_err() {
            self.pages.end();
        }
        Some(item)
    }

    /// Goes to the page of the items of `wanted` chunks from the chunk `first` on.
    fn turn(&mut self, first: u64, wanted: usize) -> Result<()> {
        let (kind, page) = (self.kind, &mut self.page);
        page.clear();
        let members = [("items", Member::Number(wanted as u64)), ("first", Member::Number(first))];
        let (held, _) = questions::ask(self.grid, kind.call(), &members, |reader| {
            reader.items(|reader| kind.read(reader, page))
        })?;
        // Chunks without a box are skipped if boxes are asked for.
        if held > wanted || (kind == Kind::Chunk && held < wanted) {
            return Err(Error::of_answer("another number of items than there are"));
        }
        self.pages.turn(wanted, held);
        Ok(())
    }

    fn fmt(&self, name: &str, formatter: &mut fmt::Formatter<'_>) -> fmt::Result {
        let mut shown = formatter.debug_struct(name);
        shown.field("grid", self.grid).field("left", &self.pages.left()).finish()
    }
}

/// All chunks of a grid that are counted, in row-major order: [`Grid::iter_chunk_indices`] makes
/// it.
///
/// They are read page by page, so there are at most some thousands in memory. A page makes the grid
/// again, which takes milliseconds if it has very many listed edges.
/// [`nth`](Iterator::nth), and so `skip` and `step_by`, takes no time for the chunks that are left
/// out.
///
/// An item is an error if there is too little memory for it, or if the text of the grid nests 127
/// deep. In a question this text is one deeper than JSON is read. The error is the last item.
///
/// # Example
///
/// ```
/// use zarrs_chunks::Grid;
///
/// let chunk_grid = r#"{"name":"regular","configuration":{"chunk_shape":[2,3]}}"#;
/// let grid = Grid::new(&[4, 7], chunk_grid)?;
/// let chunks = grid.iter_chunk_indices().skip(4).collect::<Result<Vec<_>, _>>()?;
/// assert_eq!(chunks, [[1, 1], [1, 2]]);
/// # Ok::<(), zarrs_chunks::Error>(())
/// ```
#[derive(Clone)]
pub struct ChunkIndices<'a> {
    walk: Walk<'a>,
}

impl<'a> ChunkIndices<'a> {
    pub(crate) fn new(grid: &'a Grid) -> ChunkIndices<'a> {
        ChunkIndices { walk: Walk::new(grid, Kind::Chunk) }
    }

    /// Returns how many chunks are left to give. If a grid has more than 18446744073709551615
    /// chunks, that number of them are given.
    ///
    /// # Example
    ///
    /// ```
    /// use zarrs_chunks::Grid;
    ///
    /// let chunk_grid = r#"{"name":"regular","configuration":{"chunk_shape":[1,1]}}"#;
    /// let grid = Grid::new(&[1_000_000, 1_000_000], chunk_grid)?;
    /// let mut chunks = grid.iter_chunk_indices();
    /// assert_eq!(chunks.len(), 1_000_000_000_000);
    /// assert_eq!(chunks.nth(999_999_999_999).unwrap()?, [999_999, 999_999]);
    /// assert_eq!(chunks.len(), 0);
    /// # Ok::<(), zarrs_chunks::Error>(())
    /// ```
    #[must_use]
    pub fn len(&self) -> u64 {
        self.walk.pages.left()
    }

    /// Whether no chunk is left.
    ///
    /// # Example
    ///
    /// ```
    /// use zarrs_chunks::Grid;
    ///
    /// let chunk_grid = r#"{"name":"regular","configuration":{"chunk_shape":[2,3]}}"#;
    /// let grid = Grid::new(&[0, 7], chunk_grid)?;
    /// assert!(grid.iter_chunk_indices().is_empty());
    /// # Ok::<(), zarrs_chunks::Error>(())
    /// ```
    #[must_use]
    pub fn is_empty(&self) -> bool {
        self.len() == 0
    }
}

impl Iterator for ChunkIndices<'_> {
    type Item = Result<Vec<u64>>;

    fn next(&mut self) -> Option<Result<Vec<u64>>> {
        self.walk.next(copy_of)
    }

    fn size_hint(&self) -> (usize, Option<usize>) {
        pages::size_hint(self.len())
    }

    fn nth(&mut self, count: usize) -> Option<Result<Vec<u64>>> {
        self.walk.pages.skip(count);
        self.next()
    }
}

impl FusedIterator for ChunkIndices<'_> {}

impl fmt::Debug for ChunkIndices<'_> {
    fn fmt(&self, formatter: &mut fmt::Formatter<'_>) -> fmt::Result {
        self.walk.fmt("ChunkIndices", formatter)
    }
}

/// The boxes of all chunks of a grid that are counted, in row-major order:
/// [`Grid::iter_chunk_subsets`] makes it.
///
/// A chunk that ends past 18446744073709551615 has no box, and is skipped. What [`ChunkIndices`]
/// says of memory, time and errors holds here too, except for `nth`, which goes through the boxes
/// that it leaves out.
///
/// # Example
///
/// ```
/// use zarrs_chunks::Grid;
///
/// let bounded = r#"{"name":"zarrs.regular_bounded","configuration":{"chunk_shape":[3]}}"#;
/// let grid = Grid::new(&[5], bounded)?;
/// let subset = grid.iter_chunk_subsets().last().unwrap()?;
/// assert_eq!((subset.start(), subset.shape()), (&[3][..], &[2][..]));
/// # Ok::<(), zarrs_chunks::Error>(())
/// ```
#[derive(Clone)]
pub struct ChunkSubsets<'a> {
    walk: Walk<'a>,
}

impl<'a> ChunkSubsets<'a> {
    pub(crate) fn new(grid: &'a Grid) -> ChunkSubsets<'a> {
        ChunkSubsets { walk: Walk::new(grid, Kind::Subset) }
    }
}

impl Iterator for ChunkSubsets<'_> {
    type Item = Result<ArraySubset>;

    fn next(&mut self) -> Option<Result<ArraySubset>> {
        self.walk.next(ArraySubset::of_numbers)
    }

    fn size_hint(&self) -> (usize, Option<usize>) {
        (0, pages::size_hint(self.walk.pages.left()).1)
    }
}

impl FusedIterator for ChunkSubsets<'_> {}

impl fmt::Debug for ChunkSubsets<'_> {
    fn fmt(&self, formatter: &mut fmt::Formatter<'_>) -> fmt::Result {
        self.walk.fmt("ChunkSubsets", formatter)
    }
}

/// All chunks of a grid that are counted and have a box, each with its box, in row-major order:
/// [`Grid::iter_chunk_indices_and_subsets`] makes it. All that is said at [`ChunkSubsets`] holds
/// here too.
///
/// # Example
///
/// ```
/// use zarrs_chunks::Grid;
///
/// let bounded = r#"{"name":"zarrs.regular_bounded","configuration":{"chunk_shape":[3]}}"#;
/// let grid = Grid::new(&[5], bounded)?;
/// let (chunk, subset) = grid.iter_chunk_indices_and_subsets().last().unwrap()?;
/// assert_eq!((&chunk[..], subset.shape()), (&[1][..], &[2][..]));
/// # Ok::<(), zarrs_chunks::Error>(())
/// ```
#[derive(Clone)]
pub struct ChunkIndicesAndSubsets<'a> {
    walk: Walk<'a>,
}

impl<'a> ChunkIndicesAndSubsets<'a> {
    pub(crate) fn new(grid: &'a Grid) -> ChunkIndicesAndSubsets<'a> {
        ChunkIndicesAndSubsets { walk: Walk::new(grid, Kind::ChunkAndSubset) }
    }
}

impl Iterator for ChunkIndicesAndSubsets<'_> {
    type Item = Result<(Vec<u64>, ArraySubset)>;

    fn next(&mut self) -> Option<Result<(Vec<u64>, ArraySubset)>> {
        self.walk.next(|numbers| {
            let (chunk, subset) = numbers.split_at(numbers.len() / Kind::ChunkAndSubset.lists());
            Ok((copy_of(chunk)?, ArraySubset::of_numbers(subset)?))
        })
    }

    fn size_hint(&self) -> (usize, Option<usize>) {
        (0, pages::size_hint(self.walk.pages.left()).1)
    }
}

impl FusedIterator for ChunkIndicesAndSubsets<'_> {}

impl fmt::Debug for ChunkIndicesAndSubsets<'_> {
    fn fmt(&self, formatter: &mut fmt::Formatter<'_>) -> fmt::Result {
        self.walk.fmt("ChunkIndicesAndSubsets", formatter)
    }
}
