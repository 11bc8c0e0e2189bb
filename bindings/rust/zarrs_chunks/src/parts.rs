//! The plan of reading a box of elements.

use std::fmt;
use std::iter::FusedIterator;

use crate::calls::{self, PartBuffers, PartsTold, StoredArray};
use crate::encoding::Encoding;
use crate::error::{Error, Result};
use crate::ffi;
use crate::grid::{answered, Grid};
use crate::keys::{usual_length, Keys};
use crate::memory::{copy_of, text_of, zeros};
use crate::pages::{self, Pages};
use crate::subset::ArraySubset;

/// What a box of elements has of one chunk. All lists have a number for each dimension.
///
/// # Example
///
/// ```
/// use zarrs_chunks::{ArraySubset, Encoding, Grid};
///
/// let chunk_grid = r#"{"name":"regular","configuration":{"chunk_shape":[4,3]}}"#;
/// let (grid, encoding) = (Grid::new(&[6, 6], chunk_grid)?, Encoding::new(r#""default""#)?);
/// let subset = ArraySubset::new_with_start_shape(vec![3, 2], vec![3, 2])?;
/// let part = grid.parts(&encoding, &subset)?.unwrap().nth(2).unwrap()?;
/// assert_eq!((part.chunk, &part.key[..]), (vec![1, 0], "c/1/0"));
/// assert_eq!((part.in_chunk, part.in_selection), (vec![0, 2], vec![1, 0]));
/// assert_eq!(part.shape, [2, 1]);
/// # Ok::<(), zarrs_chunks::Error>(())
/// ```
#[derive(Debug, Clone, PartialEq, Eq, Hash)]
#[non_exhaustive]
pub struct Part {
    /// The chunk.
    pub chunk: Vec<u64>,
    /// The key of the chunk.
    pub key: String,
    /// The part's first element, counted from the chunk's first element.
    pub in_chunk: Vec<u64>,
    /// The part's first element, counted from the box's first element.
    pub in_selection: Vec<u64>,
    /// How many elements the part has along each dimension.
    pub shape: Vec<u64>,
}

/// The parts of a plan, in row-major order of the chunks: [`Grid::parts`] makes it.
///
/// They are read page by page, so whatever the plan, there are at most some thousands in memory. A
/// page makes the grid again, which takes milliseconds if it has very many listed edges.
/// [`nth`](Iterator::nth), and so `skip` and `step_by`, takes no time for the parts that are left
/// out.
///
/// An item is an error if there is too little memory for it. It is the last item then.
///
/// # Example
///
/// ```
/// use zarrs_chunks::{ArraySubset, Encoding, Grid};
///
/// let chunk_grid = r#"{"name":"regular","configuration":{"chunk_shape":[4,3]}}"#;
/// let (grid, encoding) = (Grid::new(&[6, 6], chunk_grid)?, Encoding::new(r#""default""#)?);
/// let subset = ArraySubset::new_with_start_shape(vec![3, 2], vec![3, 2])?;
/// let parts = grid.parts(&encoding, &subset)?.unwrap();
/// let keys = parts.map(|part| Ok(part?.key)).collect::<Result<Vec<_>, zarrs_chunks::Error>>()?;
/// assert_eq!(keys, ["c/0/0", "c/0/1", "c/1/0", "c/1/1"]);
/// # Ok::<(), zarrs_chunks::Error>(())
/// ```
#[derive(Clone)]
pub struct Parts<'a> {
    grid: &'a Grid,
    encoding: &'a Encoding,
    subset: &'a ArraySubset,
    pages: Pages,
    page: Page,
}

/// Some parts, one after another.
#[derive(Clone)]
struct Page {
    chunks: Vec<u64>,
    in_chunk: Vec<u64>,
    in_selection: Vec<u64>,
    shapes: Vec<u64>,
    keys: Keys,
}

impl<'a> Parts<'a> {
    /// The plan of a box, which has as many dimensions as the grid.
    pub(crate) fn new(
        grid: &'a Grid,
        encoding: &'a Encoding,
        subset: &'a ArraySubset,
    ) -> Result<Option<Parts<'a>>> {
        let (told, page) = read(grid, encoding, subset, 0, 0)?;
        let numbers = grid.dimensionality().saturating_mul(4);
        let pages = Pages::new(told.in_all, numbers);
        Ok(told.is_found.then_some(Parts { grid, encoding, subset, pages, page }))
    }

    /// Returns how many parts are left to give. A plan of more than 18446744073709551615 parts is
    /// given up to that one.
    ///
    /// # Example
    ///
    /// ```
    /// use zarrs_chunks::{ArraySubset, Encoding, Grid};
    ///
    /// let chunk_grid = r#"{"name":"regular","configuration":{"chunk_shape":[1,1]}}"#;
    /// let grid = Grid::new(&[1_000_000, 1_000_000], chunk_grid)?;
    /// let encoding = Encoding::new(r#""default""#)?;
    /// let whole = ArraySubset::new_with_ranges(&[0..1_000_000, 0..1_000_000])?;
    /// let mut parts = grid.parts(&encoding, &whole)?.unwrap();
    /// assert_eq!(parts.len(), 1_000_000_000_000);
    /// assert_eq!(parts.nth(999_999_999_999).unwrap()?.key, "c/999999/999999");
    /// assert_eq!(parts.len(), 0);
    /// # Ok::<(), zarrs_chunks::Error>(())
    /// ```
    #[must_use]
    pub fn len(&self) -> u64 {
        self.pages.left()
    }

    /// Whether no part is left.
    ///
    /// # Example
    ///
    /// ```
    /// use zarrs_chunks::{ArraySubset, Encoding, Grid};
    ///
    /// let chunk_grid = r#"{"name":"regular","configuration":{"chunk_shape":[4,3]}}"#;
    /// let (grid, encoding) = (Grid::new(&[6, 6], chunk_grid)?, Encoding::new(r#""default""#)?);
    /// let nothing = ArraySubset::new_with_start_shape(vec![3, 2], vec![0, 2])?;
    /// assert!(grid.parts(&encoding, &nothing)?.unwrap().is_empty());
    /// # Ok::<(), zarrs_chunks::Error>(())
    /// ```
    #[must_use]
    pub fn is_empty(&self) -> bool {
        self.len() == 0
    }

    /// Goes to the page with `wanted` parts from the part `first` on.
    fn turn(&mut self, first: u64, wanted: usize) -> Result<()> {
        let (told, page) = read(self.grid, self.encoding, self.subset, first, wanted)?;
        if told.count != wanted || page.keys.len() != wanted {
            return Err(Error::of_answer("fewer parts than there are"));
        }
        self.page = page;
        self.pages.turn(wanted, wanted);
        Ok(())
    }

    /// The part with this number, counted from the first one of the page.
    fn part(&self, number: usize) -> Result<Part> {
        let dimensionality = self.grid.dimensionality();
        let begin = number * dimensionality;
        let numbers = |lists: &[u64]| copy_of(&lists[begin..begin + dimensionality]);
        let key = self.page.keys.get(number).ok_or_else(|| Error::of_answer("no key"))?;
        Ok(Part {
            chunk: numbers(&self.page.chunks)?,
            key: text_of(key)?,
            in_chunk: numbers(&self.page.in_chunk)?,
            in_selection: numbers(&self.page.in_selection)?,
            shape: numbers(&self.page.shapes)?,
        })
    }
}

impl Iterator for Parts<'_> {
    type Item = Result<Part>;

    fn next(&mut self) -> Option<Result<Part>> {
        let item = loop {
            if let Some(number) = self.pages.take() {
                break self.part(number);
            }
            let (first, wanted) = self.pages.wanted()?;
            match self.turn(first, wanted) {
                Ok(()) => {}
                Err(error) => break Err(error),
            }
        };
        if item.is_err() {
            self.pages.end();
        }
        Some(item)
    }

    fn size_hint(&self) -> (usize, Option<usize>) {
        pages::size_hint(self.pages.left())
    }

    fn nth(&mut self, count: usize) -> Option<Result<Part>> {
        self.pages.skip(count);
        self.next()
    }
}

impl FusedIterator for Parts<'_> {}

impl fmt::Debug for Parts<'_> {
    fn fmt(&self, formatter: &mut fmt::Formatter<'_>) -> fmt::Result {
        let mut shown = formatter.debug_struct("Parts");
        shown.field("grid", self.grid).field("encoding", self.encoding);
        shown.field("subset", self.subset).field("len", &self.len()).finish()
    }
}

/// `room` parts of a plan from the part `first` on, or fewer if fewer follow, and what the library
/// says of them.
fn read(
    grid: &Grid,
    encoding: &Encoding,
    subset: &ArraySubset,
    first: u64,
    room: usize,
) -> Result<(PartsTold, Page)> {
    let array = StoredArray {
        shape: grid.array_shape(),
        chunk_grid: grid.chunk_grid(),
        chunk_key_encoding: encoding.chunk_key_encoding(),
    };
    let dimensionality = grid.dimensionality();
    let list = || zeros(room.saturating_mul(dimensionality));
    let (mut chunks, mut in_chunk, mut in_selection, mut shapes) =
        (list()?, list()?, list()?, list()?);
    let mut offsets = zeros(room.saturating_add(1))?;
    let mut call = |text: &mut [u8]| {
        let buffers = PartBuffers {
            chunks: &mut chunks,
            in_chunk: &mut in_chunk,
            in_selection: &mut in_selection,
            shapes: &mut shapes,
            text,
            offsets: &mut offsets,
        };
        calls::parts_of(&array, subset, first, buffers)
    };
    let mut text = zeros(usual_length(room, dimensionality))?;
    let (mut code, mut told) = call(&mut text);
    if code == ffi::SHORT_BUFFER {
        text = zeros(told.needed)?;
        (code, told) = call(&mut text);
    }
    answered(code)?;
    text.truncate(told.needed);
    offsets.truncate(told.count.saturating_add(1));
    let keys = Keys::new(text, offsets)?;
    Ok((told, Page { chunks, in_chunk, in_selection, shapes, keys }))
}
