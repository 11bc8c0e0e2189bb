//! Chunk grids.

use std::fmt;

use crate::calls;
use crate::changes::ChangedChunks;
use crate::encoding::Encoding;
use crate::error::{Error, Result};
use crate::ffi;
use crate::library;
use crate::memory::{copy_of, text_of, zeros};
use crate::parts::Parts;
use crate::questions::{self, Member};
use crate::reader::Reader;
use crate::subset::ArraySubset;
use crate::task_counts::TaskCounts;
use crate::tasks::{TaskOptions, Tasks};
use crate::walks::{ChunkIndices, ChunkIndicesAndSubsets, ChunkSubsets};

/// A chunk grid: the chunks into which an array of a shape is cut.
///
/// Sizes, indices, origins, shapes and places count elements. Chunks are numbered from 0 along each
/// dimension. All numbers go from 0 to 18446744073709551615, and no sum or product wraps.
///
/// A grid prepares itself once, as numbers. So no call reads JSON, except for each page of a plan,
/// of tasks or of a walk, and for [questions](Grid#questions). It never changes, and any number of
/// threads may ask it at once. Two are equal if they were made of the same shape and the same text.
///
/// # Batches
///
/// A batch asks many lists at once. They follow one another in one slice, without anything between
/// two. The length of `found` is the number of lists. Each other slice has a number for each list
/// and each dimension of the grid. In `found` a list has `true` if there is an answer to it. If
/// there is no answer, its numbers in the answer's slices stay as they were. After an error these
/// slices hold anything.
///
/// # Questions
///
/// A few methods ask as [`answer`](crate::answer) does, by a question that has the grid's text.
/// So they make the grid again, which takes milliseconds if it has very many listed edges. If the
/// text nests 127 deep, it is one deeper in a question than JSON is read, and the error is
/// [`Error::Refused`].
///
/// # Example
///
/// ```
/// use zarrs_chunks::Grid;
///
/// let chunk_grid = r#"{"name":"zarrs.regular_bounded","configuration":{"chunk_shape":[2,3]}}"#;
/// let grid = Grid::new(&[5, 7], chunk_grid)?;
/// assert_eq!(grid.grid_shape(), [3, 3]);
/// assert_eq!(grid.chunk_indices(&[4, 6])?, Some(vec![2, 2]));
/// assert_eq!(grid.chunk_indices(&[4, 7])?, None);
/// # Ok::<(), zarrs_chunks::Error>(())
/// ```
#[derive(Clone, PartialEq, Eq, Hash)]
pub struct Grid {
    shape: Vec<u64>,
    chunk_grid: String,
    /// Those that `zarrs_prepare_grid` wrote, all of them.
    numbers: Vec<u64>,
    grid_shape: Vec<u64>,
}

/// The place of an element: in which chunk it lies, and where in it. Both lists have a number for
/// each dimension. [`Grid::find_home`] makes it.
///
/// # Example
///
/// ```
/// use zarrs_chunks::Grid;
///
/// let chunk_grid = r#"{"name":"regular","configuration":{"chunk_shape":[2,3]}}"#;
/// let home = Grid::new(&[5, 7], chunk_grid)?.find_home(&[4, 5])?.unwrap();
/// assert_eq!((home.chunk, home.place), (vec![2, 1], vec![0, 2]));
/// # Ok::<(), zarrs_chunks::Error>(())
/// ```
#[derive(Debug, Clone, PartialEq, Eq, Hash)]
#[non_exhaustive]
pub struct Home {
    /// The chunk that holds the element.
    pub chunk: Vec<u64>,
    /// The element's place there, counted from the chunk's first element.
    pub place: Vec<u64>,
}

/// The place where an element is stored: in which chunk, where in it, and under which key. Both
/// lists have a number for each dimension. [`Grid::locate`] makes it.
///
/// # Example
///
/// ```
/// use zarrs_chunks::{Encoding, Grid};
///
/// let chunk_grid = r#"{"name":"regular","configuration":{"chunk_shape":[2,3]}}"#;
/// let (grid, encoding) = (Grid::new(&[5, 7], chunk_grid)?, Encoding::new(r#""default""#)?);
/// let located = grid.locate(&encoding, &[4, 5])?.unwrap();
/// assert_eq!((located.chunk, located.place), (vec![2, 1], vec![0, 2]));
/// assert_eq!(located.key, "c/2/1");
/// # Ok::<(), zarrs_chunks::Error>(())
/// ```
#[derive(Debug, Clone, PartialEq, Eq, Hash)]
#[non_exhaustive]
pub struct Located {
    /// The chunk that holds the element.
    pub chunk: Vec<u64>,
    /// The element's place there, counted from the chunk's first element.
    pub place: Vec<u64>,
    /// The key of the chunk.
    pub key: String,
}

/// What a look-up finds, and what it takes. [`Grid::chunk_indices_counted`] makes it.
///
/// # Example
///
/// ```
/// use zarrs_chunks::Grid;
///
/// let chunk_grid = r#"{"name":"rectilinear",
///     "configuration":{"kind":"inline","chunk_shapes":[[[5,3],[15,2],20,35]]}}"#;
/// let counted = Grid::new(&[100], chunk_grid)?.chunk_indices_counted(&[99])?;
/// assert_eq!((counted.chunk, counted.comparisons), (Some(vec![6]), 2));
/// # Ok::<(), zarrs_chunks::Error>(())
/// ```
#[derive(Debug, Clone, PartialEq, Eq, Hash)]
#[non_exhaustive]
pub struct Counted {
    /// The chunk; `None` if no chunk holds the element.
    pub chunk: Option<Vec<u64>>,
    /// How many comparisons the look-up makes.
    pub comparisons: u64,
}

impl Grid {
    /// The grid of an array of this shape, in elements. `chunk_grid` is the JSON text of the member
    /// `chunk_grid` of the array's `zarr.json`: an object, or a name alone, with its quotes.
    ///
    /// # Errors
    ///
    /// [`Error::NotJson`], [`Error::NotMetadata`] and [`Error::Refused`] with the library's words;
    /// [`Error::OutOfMemory`]; [`Error::WrongVersion`] and [`Error::WrongProcessor`] if the
    /// library can't be called.
    ///
    /// # Example
    ///
    /// ```
    /// use zarrs_chunks::Grid;
    ///
    /// let chunk_grid = r#"{"name":"rectilinear",
    ///     "configuration":{"kind":"inline","chunk_shapes":[[[25,4]]]}}"#;
    /// assert_eq!(Grid::new(&[100], chunk_grid)?.grid_shape(), [4]);
    /// let refused = Grid::new(&[100], r#""hexagonal""#).unwrap_err();
    /// assert_eq!(refused.to_string(), "name `hexagonal` is not supported");
    /// # Ok::<(), zarrs_chunks::Error>(())
    /// ```
    pub fn new(shape: &[u64], chunk_grid: &str) -> Result<Grid> {
        library::check()?;
        // One edge for all chunks takes seven numbers a dimension.
        let mut numbers = zeros(shape.len().saturating_mul(7).saturating_add(2))?;
        let (mut code, mut needed) = calls::prepare_grid(shape, chunk_grid, &mut numbers);
        if code == ffi::SHORT_BUFFER {
            numbers = zeros(needed)?;
            (code, needed) = calls::prepare_grid(shape, chunk_grid, &mut numbers);
        }
        if code != ffi::OK {
            let fault = |words: &mut [u8]| calls::grid_fault(shape, chunk_grid, words);
            return Err(Error::of_metadata(code, fault));
        }
        numbers.truncate(needed);
        let mut grid_shape = zeros(shape.len())?;
        answered(calls::grid_shape(&numbers, &mut grid_shape))?;
        let (shape, chunk_grid) = (copy_of(shape)?, text_of(chunk_grid)?);
        Ok(Grid { shape, chunk_grid, numbers, grid_shape })
    }

    /// The number of dimensions.
    ///
    /// # Example
    ///
    /// ```
    /// use zarrs_chunks::Grid;
    ///
    /// let chunk_grid = r#"{"name":"regular","configuration":{"chunk_shape":[2,3]}}"#;
    /// let grid = Grid::new(&[5, 7], chunk_grid)?;
    /// assert_eq!(grid.dimensionality(), 2);
    /// # Ok::<(), zarrs_chunks::Error>(())
    /// ```
    #[must_use]
    pub fn dimensionality(&self) -> usize {
        self.shape.len()
    }

    /// The sizes of the array, in elements.
    ///
    /// # Example
    ///
    /// ```
    /// use zarrs_chunks::Grid;
    ///
    /// let chunk_grid = r#"{"name":"regular","configuration":{"chunk_shape":[2,3]}}"#;
    /// let grid = Grid::new(&[5, 7], chunk_grid)?;
    /// assert_eq!(grid.array_shape(), [5, 7]);
    /// # Ok::<(), zarrs_chunks::Error>(())
    /// ```
    #[must_use]
    pub fn array_shape(&self) -> &[u64] {
        &self.shape
    }

    /// How many chunks are counted along each dimension.
    ///
    /// # Example
    ///
    /// ```
    /// use zarrs_chunks::Grid;
    ///
    /// let chunk_grid = r#"{"name":"regular","configuration":{"chunk_shape":[2,3]}}"#;
    /// let grid = Grid::new(&[5, 7], chunk_grid)?;
    /// assert_eq!(grid.grid_shape(), [3, 3]);
    /// # Ok::<(), zarrs_chunks::Error>(())
    /// ```
    #[must_use]
    pub fn grid_shape(&self) -> &[u64] {
        &self.grid_shape
    }

    /// The text that the grid was made of.
    ///
    /// # Example
    ///
    /// ```
    /// use zarrs_chunks::Grid;
    ///
    /// let chunk_grid = r#"{"name":"regular","configuration":{"chunk_shape":[2,3]}}"#;
    /// assert_eq!(Grid::new(&[5, 7], chunk_grid)?.chunk_grid(), chunk_grid);
    /// # Ok::<(), zarrs_chunks::Error>(())
    /// ```
    #[must_use]
    pub fn chunk_grid(&self) -> &str {
        &self.chunk_grid
    }

    /// The chunk that holds an element; `None` if no chunk does.
    ///
    /// # Errors
    ///
    /// [`Error::WrongLength`] if the index has not one number for each dimension;
    /// [`Error::OutOfMemory`].
    ///
    /// # Example
    ///
    /// ```
    /// use zarrs_chunks::Grid;
    ///
    /// let chunk_grid = r#"{"name":"regular","configuration":{"chunk_shape":[1,2,3]}}"#;
    /// let grid = Grid::new(&[5, 7, 52], chunk_grid)?;
    /// assert_eq!(grid.chunk_indices(&[3, 5, 50])?, Some(vec![3, 2, 16]));
    /// # Ok::<(), zarrs_chunks::Error>(())
    /// ```
    pub fn chunk_indices(&self, indices: &[u64]) -> Result<Option<Vec<u64>>> {
        self.check_one("indices", indices.len())?;
        let (mut chunk, mut found) = (zeros(self.dimensionality())?, [0]);
        answered(calls::chunk_indices_of(&self.numbers, indices, &mut chunk, &mut found))?;
        Ok(is_found(found).then_some(chunk))
    }

    /// The place of an element in the chunk that holds it, counted from the chunk's first element;
    /// `None` if no chunk does.
    ///
    /// # Errors
    ///
    /// Those of [`chunk_indices`](Grid::chunk_indices).
    ///
    /// # Example
    ///
    /// ```
    /// use zarrs_chunks::Grid;
    ///
    /// let chunk_grid = r#"{"name":"regular","configuration":{"chunk_shape":[2,3]}}"#;
    /// let grid = Grid::new(&[5, 7], chunk_grid)?;
    /// assert_eq!(grid.chunk_element_indices(&[4, 5])?, Some(vec![0, 2]));
    /// # Ok::<(), zarrs_chunks::Error>(())
    /// ```
    pub fn chunk_element_indices(&self, indices: &[u64]) -> Result<Option<Vec<u64>>> {
        Ok(self.find_home(indices)?.map(|home| home.place))
    }

    /// The chunk that holds an element, and the element's place there; `None` if no chunk does.
    ///
    /// # Errors
    ///
    /// Those of [`chunk_indices`](Grid::chunk_indices).
    ///
    /// # Example
    ///
    /// ```
    /// use zarrs_chunks::Grid;
    ///
    /// let chunk_grid = r#"{"name":"regular","configuration":{"chunk_shape":[2,3]}}"#;
    /// let home = Grid::new(&[5, 7], chunk_grid)?.find_home(&[4, 5])?.unwrap();
    /// assert_eq!((home.chunk, home.place), (vec![2, 1], vec![0, 2]));
    /// # Ok::<(), zarrs_chunks::Error>(())
    /// ```
    pub fn find_home(&self, indices: &[u64]) -> Result<Option<Home>> {
        self.check_one("indices", indices.len())?;
        let (mut chunk, mut place) = (zeros(self.dimensionality())?, zeros(self.dimensionality())?);
        let mut found = [0];
        answered(calls::homes_of(&self.numbers, indices, &mut chunk, &mut place, &mut found))?;
        Ok(is_found(found).then_some(Home { chunk, place }))
    }

    /// Returns where an element is stored: its chunk, its place there, and the chunk's key; `None`
    /// if no chunk holds it.
    ///
    /// # Errors
    ///
    /// Those of [`chunk_indices`](Grid::chunk_indices).
    ///
    /// # Example
    ///
    /// ```
    /// use zarrs_chunks::{Encoding, Grid};
    ///
    /// let chunk_grid = r#"{"name":"regular","configuration":{"chunk_shape":[2,3]}}"#;
    /// let (grid, encoding) = (Grid::new(&[5, 7], chunk_grid)?, Encoding::new(r#""default""#)?);
    /// assert_eq!(grid.locate(&encoding, &[4, 5])?.unwrap().key, "c/2/1");
    /// # Ok::<(), zarrs_chunks::Error>(())
    /// ```
    pub fn locate(&self, encoding: &Encoding, indices: &[u64]) -> Result<Option<Located>> {
        let home = self.find_home(indices)?;
        let located = home.map(|Home { chunk, place }| {
            let key = encoding.encode(&chunk)?;
            Ok(Located { chunk, place, key })
        });
        located.transpose()
    }

    /// Returns the chunk that holds an element of a `rectilinear` grid, and how many comparisons it
    /// takes to look it up. It is [a question](Grid#questions).
    ///
    /// # Errors
    ///
    /// [`Error::Refused`] if the grid has another name; the errors of
    /// [`chunk_indices`](Grid::chunk_indices).
    ///
    /// # Example
    ///
    /// ```
    /// use zarrs_chunks::Grid;
    ///
    /// let chunk_grid = r#"{"name":"rectilinear",
    ///     "configuration":{"kind":"inline","chunk_shapes":[[[5,3],[15,2],20,35]]}}"#;
    /// let counted = Grid::new(&[100], chunk_grid)?.chunk_indices_counted(&[99])?;
    /// assert_eq!((counted.chunk, counted.comparisons), (Some(vec![6]), 2));
    /// # Ok::<(), zarrs_chunks::Error>(())
    /// ```
    pub fn chunk_indices_counted(&self, indices: &[u64]) -> Result<Counted> {
        self.check_one("indices", indices.len())?;
        questions::ask(self, "chunk_indices_counted", &[("of", Member::List(indices))], |reader| {
            reader.expect("{\"answer\":")?;
            let chunk = reader.optional(Reader::list)?;
            reader.expect(",\"comparisons\":")?;
            let comparisons = reader.number()?;
            reader.expect("}")?;
            Ok(Counted { chunk, comparisons })
        })
    }

    /// Returns whether an element lies in the array: below its size along each dimension. Along a
    /// dimension of size 0 all do, or if its edges are listed, those that lie in a chunk. A list
    /// without one number for each dimension isn't an element. It is [a question](Grid#questions).
    ///
    /// # Errors
    ///
    /// [`Error::OutOfMemory`].
    ///
    /// # Example
    ///
    /// ```
    /// use zarrs_chunks::Grid;
    ///
    /// let chunk_grid = r#"{"name":"regular","configuration":{"chunk_shape":[2,3]}}"#;
    /// let grid = Grid::new(&[5, 7], chunk_grid)?;
    /// assert!(grid.array_indices_inbounds(&[4, 6])?);
    /// assert!(!grid.array_indices_inbounds(&[5, 0])?);
    /// # Ok::<(), zarrs_chunks::Error>(())
    /// ```
    pub fn array_indices_inbounds(&self, indices: &[u64]) -> Result<bool> {
        let members = [("of", Member::List(indices))];
        questions::ask(self, "array_indices_inbounds", &members, |reader| reader.truth())
    }

    /// Returns the box of a chunk, in elements; `None` if there is no such chunk, or it ends past
    /// 18446744073709551615.
    ///
    /// # Errors
    ///
    /// [`Error::WrongLength`] if the chunk has not one number for each dimension;
    /// [`Error::OutOfMemory`].
    ///
    /// # Example
    ///
    /// ```
    /// use zarrs_chunks::{ArraySubset, Grid};
    ///
    /// let bounded = r#"{"name":"zarrs.regular_bounded","configuration":{"chunk_shape":[2,3]}}"#;
    /// let grid = Grid::new(&[5, 7], bounded)?;
    /// assert_eq!(grid.subset(&[2, 2])?, Some(ArraySubset::new_with_ranges(&[4..5, 6..7])?));
    /// # Ok::<(), zarrs_chunks::Error>(())
    /// ```
    pub fn subset(&self, chunk: &[u64]) -> Result<Option<ArraySubset>> {
        self.check_one("chunk", chunk.len())?;
        let (mut start, mut shape) = (zeros(self.dimensionality())?, zeros(self.dimensionality())?);
        let mut found = [0];
        answered(calls::chunk_boxes_of(&self.numbers, chunk, &mut start, &mut shape, &mut found))?;
        is_found(found).then(|| ArraySubset::of_answer(start, shape)).transpose()
    }

    /// Returns how many elements a chunk has along each dimension; `None` if there is no such
    /// chunk. For a chunk without a box it is [a question](Grid#questions).
    ///
    /// # Errors
    ///
    /// Those of [`subset`](Grid::subset).
    ///
    /// # Example
    ///
    /// ```
    /// use zarrs_chunks::Grid;
    ///
    /// let bounded = r#"{"name":"zarrs.regular_bounded","configuration":{"chunk_shape":[2,3]}}"#;
    /// let grid = Grid::new(&[5, 7], bounded)?;
    /// assert_eq!(grid.chunk_shape(&[2, 2])?, Some(vec![1, 1]));
    /// assert_eq!(grid.chunk_shape(&[3, 0])?, None);
    /// # Ok::<(), zarrs_chunks::Error>(())
    /// ```
    pub fn chunk_shape(&self, chunk: &[u64]) -> Result<Option<Vec<u64>>> {
        match self.subset(chunk)? {
            Some(subset) => Ok(Some(subset.into_lists().1)),
            None => self.of_chunk("chunk_shape", chunk),
        }
    }

    /// Returns the first element of a chunk; `None` if there is no such chunk, or it begins past
    /// 18446744073709551615. For a chunk without a box it is [a question](Grid#questions).
    ///
    /// # Errors
    ///
    /// Those of [`subset`](Grid::subset).
    ///
    /// # Example
    ///
    /// ```
    /// use zarrs_chunks::Grid;
    ///
    /// let chunk_grid = r#"{"name":"regular","configuration":{"chunk_shape":[2,3]}}"#;
    /// let grid = Grid::new(&[5, 7], chunk_grid)?;
    /// assert_eq!(grid.chunk_origin(&[2, 2])?, Some(vec![4, 6]));
    /// assert_eq!(grid.chunk_origin(&[1 << 63, 0])?, None);
    /// # Ok::<(), zarrs_chunks::Error>(())
    /// ```
    pub fn chunk_origin(&self, chunk: &[u64]) -> Result<Option<Vec<u64>>> {
        match self.subset(chunk)? {
            Some(subset) => Ok(Some(subset.into_lists().0)),
            None => self.of_chunk("chunk_origin", chunk),
        }
    }

    /// Returns a list that a question answers for a chunk.
    fn of_chunk(&self, call: &str, chunk: &[u64]) -> Result<Option<Vec<u64>>> {
        questions::ask(self, call, &[("of", Member::List(chunk))], |reader| {
            reader.optional(Reader::list)
        })
    }

    /// Returns whether a chunk is among those that are counted: below the grid's shape along each
    /// dimension. Along a dimension without chunks all are. A list without one number for each
    /// dimension isn't a chunk. It is [a question](Grid#questions).
    ///
    /// # Errors
    ///
    /// [`Error::OutOfMemory`].
    ///
    /// # Example
    ///
    /// ```
    /// use zarrs_chunks::Grid;
    ///
    /// let chunk_grid = r#"{"name":"regular","configuration":{"chunk_shape":[2,3]}}"#;
    /// let grid = Grid::new(&[5, 7], chunk_grid)?;
    /// assert!(grid.chunk_indices_inbounds(&[2, 2])?);
    /// assert!(!grid.chunk_indices_inbounds(&[3, 0])?);
    /// # Ok::<(), zarrs_chunks::Error>(())
    /// ```
    pub fn chunk_indices_inbounds(&self, chunk: &[u64]) -> Result<bool> {
        let members = [("of", Member::List(chunk))];
        questions::ask(self, "chunk_indices_inbounds", &members, |reader| reader.truth())
    }

    /// Returns the box of elements that a box of chunks holds. For an empty box it is empty. `None`
    /// if the first or the last chunk of the box has no box. It is [a question](Grid#questions).
    ///
    /// # Errors
    ///
    /// [`Error::WrongLength`] if the box has another number of dimensions than the grid;
    /// [`Error::OutOfMemory`].
    ///
    /// # Example
    ///
    /// ```
    /// use zarrs_chunks::{ArraySubset, Grid};
    ///
    /// let bounded = r#"{"name":"zarrs.regular_bounded","configuration":{"chunk_shape":[2,3]}}"#;
    /// let grid = Grid::new(&[5, 7], bounded)?;
    /// let elements = grid.chunks_subset(&ArraySubset::new_with_ranges(&[1..3, 1..3])?)?;
    /// assert_eq!(elements, Some(ArraySubset::new_with_ranges(&[2..5, 3..7])?));
    /// # Ok::<(), zarrs_chunks::Error>(())
    /// ```
    pub fn chunks_subset(&self, chunks: &ArraySubset) -> Result<Option<ArraySubset>> {
        self.check_one("chunks", chunks.dimensionality())?;
        questions::ask(self, "chunks_subset", &[("of", Member::Box(chunks))], |reader| {
            reader.optional(Reader::subset)
        })
    }

    /// Returns the cover of a box of elements: the box of the chunks that hold some of them. For an
    /// empty box it is empty. `None` if the first or the last element of the box lies in no chunk.
    ///
    /// # Errors
    ///
    /// [`Error::WrongLength`] if the box has another number of dimensions than the grid;
    /// [`Error::OutOfMemory`].
    ///
    /// # Example
    ///
    /// ```
    /// use zarrs_chunks::{ArraySubset, Grid};
    ///
    /// let chunk_grid = r#"{"name":"regular","configuration":{"chunk_shape":[4,3]}}"#;
    /// let grid = Grid::new(&[6, 6], chunk_grid)?;
    /// let cover = grid.chunks_in_array_subset(&ArraySubset::new_with_ranges(&[3..6, 2..4])?)?;
    /// assert_eq!(cover, Some(ArraySubset::new_with_ranges(&[0..2, 0..2])?));
    /// # Ok::<(), zarrs_chunks::Error>(())
    /// ```
    pub fn chunks_in_array_subset(&self, subset: &ArraySubset) -> Result<Option<ArraySubset>> {
        self.check_one("subset", subset.dimensionality())?;
        let (mut first, mut count) = (zeros(self.dimensionality())?, zeros(self.dimensionality())?);
        let (mut found, asked) = ([0], [subset.start(), subset.shape()]);
        let (code, _) = calls::covers_of(&self.numbers, asked, &mut first, &mut count, &mut found);
        answered(code)?;
        is_found(found).then(|| ArraySubset::of_answer(first, count)).transpose()
    }

    /// The chunk that holds each element: [a batch](Grid#batches).
    ///
    /// # Errors
    ///
    /// [`Error::WrongLength`] if `indices` or `chunks` haven't one number for each dimension and
    /// each item of `found`; [`Error::OutOfMemory`].
    ///
    /// # Example
    ///
    /// ```
    /// use zarrs_chunks::Grid;
    ///
    /// let bounded = r#"{"name":"zarrs.regular_bounded","configuration":{"chunk_shape":[2,3]}}"#;
    /// let grid = Grid::new(&[5, 7], bounded)?;
    /// let (mut chunks, mut found) = ([0; 4], [false; 2]);
    /// grid.chunk_indices_of(&[4, 6, 4, 7], &mut chunks, &mut found)?;
    /// assert_eq!((chunks, found), ([2, 2, 0, 0], [true, false]));
    /// # Ok::<(), zarrs_chunks::Error>(())
    /// ```
    pub fn chunk_indices_of(
        &self,
        indices: &[u64],
        chunks: &mut [u64],
        found: &mut [bool],
    ) -> Result<()> {
        self.check_batch(found, [("indices", indices.len()), ("chunks", chunks.len())])?;
        let mut marks = zeros(found.len())?;
        answered(calls::chunk_indices_of(&self.numbers, indices, chunks, &mut marks))?;
        tell(&marks, found);
        Ok(())
    }

    /// The chunk that holds each element, and the element's place there: [a batch](Grid#batches).
    ///
    /// # Errors
    ///
    /// [`Error::WrongLength`] if `indices`, `chunks` or `places` haven't one number for each
    /// dimension and each item of `found`; [`Error::OutOfMemory`].
    ///
    /// # Example
    ///
    /// ```
    /// use zarrs_chunks::Grid;
    ///
    /// let chunk_grid = r#"{"name":"regular","configuration":{"chunk_shape":[2,3]}}"#;
    /// let grid = Grid::new(&[5, 7], chunk_grid)?;
    /// let (mut chunks, mut places, mut found) = ([0; 4], [0; 4], [false; 2]);
    /// grid.homes_of(&[4, 5, 1, 1], &mut chunks, &mut places, &mut found)?;
    /// assert_eq!((chunks, places, found), ([2, 1, 0, 0], [0, 2, 1, 1], [true, true]));
    /// # Ok::<(), zarrs_chunks::Error>(())
    /// ```
    pub fn homes_of(
        &self,
        indices: &[u64],
        chunks: &mut [u64],
        places: &mut [u64],
        found: &mut [bool],
    ) -> Result<()> {
        let lengths =
            [("indices", indices.len()), ("chunks", chunks.len()), ("places", places.len())];
        self.check_batch(found, lengths)?;
        let mut marks = zeros(found.len())?;
        answered(calls::homes_of(&self.numbers, indices, chunks, places, &mut marks))?;
        tell(&marks, found);
        Ok(())
    }

    /// Writes the box of each chunk, as its first element and its shape: [a batch](Grid#batches).
    /// There is no box if there is no such chunk, or it ends past 18446744073709551615.
    ///
    /// # Errors
    ///
    /// [`Error::WrongLength`] if `chunks`, `origins` or `shapes` haven't one number for each
    /// dimension and each item of `found`; [`Error::OutOfMemory`].
    ///
    /// # Example
    ///
    /// ```
    /// use zarrs_chunks::Grid;
    ///
    /// let bounded = r#"{"name":"zarrs.regular_bounded","configuration":{"chunk_shape":[2,3]}}"#;
    /// let grid = Grid::new(&[5, 7], bounded)?;
    /// let (mut origins, mut shapes, mut found) = ([0; 4], [0; 4], [false; 2]);
    /// grid.chunk_boxes_of(&[2, 2, 2, 3], &mut origins, &mut shapes, &mut found)?;
    /// assert_eq!((origins, shapes, found), ([4, 6, 0, 0], [1, 1, 0, 0], [true, false]));
    /// # Ok::<(), zarrs_chunks::Error>(())
    /// ```
    pub fn chunk_boxes_of(
        &self,
        chunks: &[u64],
        origins: &mut [u64],
        shapes: &mut [u64],
        found: &mut [bool],
    ) -> Result<()> {
        let lengths =
            [("chunks", chunks.len()), ("origins", origins.len()), ("shapes", shapes.len())];
        self.check_batch(found, lengths)?;
        let mut marks = zeros(found.len())?;
        answered(calls::chunk_boxes_of(&self.numbers, chunks, origins, shapes, &mut marks))?;
        tell(&marks, found);
        Ok(())
    }

    /// Writes the cover of each box of elements, which is given as its first index and its shape:
    /// [a batch](Grid#batches). A cover is its first chunk, and how many chunks it has along each
    /// dimension. There is no cover if the first or the last element of the box lies in no chunk.
    ///
    /// # Errors
    ///
    /// [`Error::NotABox`] if a box ends past 18446744073709551615; [`Error::WrongLength`] if
    /// a list hasn't one number for each dimension and each item of `found`;
    /// [`Error::OutOfMemory`].
    ///
    /// # Example
    ///
    /// ```
    /// use zarrs_chunks::Grid;
    ///
    /// let chunk_grid = r#"{"name":"regular","configuration":{"chunk_shape":[4,3]}}"#;
    /// let grid = Grid::new(&[6, 6], chunk_grid)?;
    /// let (mut first_chunks, mut chunk_counts, mut found) = ([0; 2], [0; 2], [false; 1]);
    /// grid.covers_of(&[3, 2], &[3, 2], &mut first_chunks, &mut chunk_counts, &mut found)?;
    /// assert_eq!((first_chunks, chunk_counts, found), ([0, 0], [2, 2], [true]));
    /// # Ok::<(), zarrs_chunks::Error>(())
    /// ```
    pub fn covers_of(
        &self,
        starts: &[u64],
        shapes: &[u64],
        first_chunks: &mut [u64],
        chunk_counts: &mut [u64],
        found: &mut [bool],
    ) -> Result<()> {
        let lengths = [
            ("starts", starts.len()),
            ("shapes", shapes.len()),
            ("first_chunks", first_chunks.len()),
            ("chunk_counts", chunk_counts.len()),
        ];
        self.check_batch(found, lengths)?;
        let (mut marks, asked) = (zeros(found.len())?, [starts, shapes]);
        match calls::covers_of(&self.numbers, asked, first_chunks, chunk_counts, &mut marks) {
            (ffi::NOT_A_BOX, which) => return Err(Error::NotABox { which }),
            (code, _) => answered(code)?,
        }
        tell(&marks, found);
        Ok(())
    }

    /// Returns the plan of reading a box of elements: a part for each chunk that holds some of
    /// them, in row-major order of the chunks. `None` if the first or the last element of the box
    /// lies in no chunk. An empty box has a plan without parts.
    ///
    /// The plan is read page by page, so it takes little memory, however many parts it has.
    ///
    /// # Errors
    ///
    /// [`Error::WrongLength`] if the box has another number of dimensions than the grid;
    /// [`Error::OutOfMemory`].
    ///
    /// # Example
    ///
    /// ```
    /// use zarrs_chunks::{ArraySubset, Encoding, Grid};
    ///
    /// let chunk_grid = r#"{"name":"regular","configuration":{"chunk_shape":[4,3]}}"#;
    /// let (grid, encoding) = (Grid::new(&[6, 6], chunk_grid)?, Encoding::new(r#""default""#)?);
    /// let subset = ArraySubset::new_with_start_shape(vec![3, 2], vec![3, 2])?;
    /// let mut keys = Vec::new();
    /// for part in grid.parts(&encoding, &subset)?.unwrap() {
    ///     let part = part?;
    ///     // Its elements begin at `part.in_chunk` of the chunk that is stored under `part.key`,
    ///     // and at `part.in_selection` of the box.
    ///     keys.push((part.key, part.shape));
    /// }
    /// assert_eq!(keys[0], ("c/0/0".to_owned(), vec![1, 1]));
    /// assert_eq!(keys[2], ("c/1/0".to_owned(), vec![2, 1]));
    /// assert_eq!(keys.len(), 4);
    /// # Ok::<(), zarrs_chunks::Error>(())
    /// ```
    pub fn parts<'a>(
        &'a self,
        encoding: &'a Encoding,
        subset: &'a ArraySubset,
    ) -> Result<Option<Parts<'a>>> {
        self.check_one("subset", subset.dimensionality())?;
        Parts::new(self, encoding, subset)
    }

    /// Returns the tasks that copy this array, or a region of it, to the array of `target`. A task
    /// fills a buffer from chunks of this array, and writes it to chunks of the target's array.
    /// Tasks come in row-major order of the chunks that they take.
    ///
    /// By default the whole array is copied to the first index of the target's array, and each task
    /// writes one chunk. If both arrays have one shape, this is a rechunking. [`TaskOptions`] say
    /// which region is copied, and which chunks a task takes. The target may be this array, or have
    /// another shape. This array has `encoding`, and the target's array has `target_encoding`.
    ///
    /// Tasks are read page by page, so they take little memory, however many they are.
    ///
    /// # Errors
    ///
    /// [`Error::Refused`] if
    ///
    /// - the target's array, the region, `at` or `task_chunks` has another number of dimensions
    ///   than this grid;
    /// - a number of `task_chunks` is 0;
    /// - the region doesn't lie in both arrays;
    /// - the texts nest too deep for [a question](Grid#questions), in which the target's texts
    ///   stand one deeper than the others.
    ///
    /// [`Error::OutOfMemory`].
    ///
    /// # Example
    ///
    /// ```
    /// use zarrs_chunks::{ArraySubset, Encoding, Grid, TaskOptions};
    ///
    /// let three = r#"{"name":"regular","configuration":{"chunk_shape":[3]}}"#;
    /// let five = r#"{"name":"regular","configuration":{"chunk_shape":[5]}}"#;
    /// let (grid, target) = (Grid::new(&[7], three)?, Grid::new(&[12], five)?);
    /// let encodings = [Encoding::new(r#""default""#)?, Encoding::new(r#""v2""#)?];
    /// // The elements 1 to 6 go to the places 4 to 9.
    /// let subset = ArraySubset::new_with_ranges(&[1..7])?;
    /// let options = TaskOptions { subset: Some(&subset), at: Some(&[4]), ..Default::default() };
    /// let mut lines = Vec::new();
    /// for task in grid.tasks(&encodings[0], &target, &encodings[1], options)? {
    ///     let task = task?;
    ///     for source in &task.sources {
    ///         // The elements `source.in_chunk` of the chunk go to the places `source.in_buffer`.
    ///         lines.push(format!("read {}", source.key));
    ///     }
    ///     for target in &task.targets {
    ///         // The elements `target.in_buffer` go to the places `target.in_chunk` of the chunk.
    ///         let how = if target.whole { "write" } else { "update" };
    ///         lines.push(format!("{how} {}", target.key));
    ///     }
    /// }
    /// assert_eq!(lines[..2], ["read c/0", "update 0"]);
    /// assert_eq!(lines[2..], ["read c/0", "read c/1", "read c/2", "write 1"]);
    /// # Ok::<(), zarrs_chunks::Error>(())
    /// ```
    pub fn tasks<'a>(
        &'a self,
        encoding: &'a Encoding,
        target: &'a Grid,
        target_encoding: &'a Encoding,
        options: TaskOptions<'a>,
    ) -> Result<Tasks<'a>> {
        Tasks::new((self, encoding), (target, target_encoding), options)
    }

    /// Returns how much the [`tasks`](Grid::tasks) of a copy read and write, without a walk over
    /// them, and which tasks are in a share. The time grows with the chunks along each dimension by
    /// itself, but not along a dimension that is regular in both arrays. It is
    /// [a question](Grid#questions).
    ///
    /// A `share` is its number, counted from 0, and how many shares there are: `(0, 1)` is all
    /// tasks. The shares, one after another, are all tasks. Each has as many tasks as any other,
    /// or one more. The counts are of all tasks, whichever share is asked for.
    ///
    /// # Errors
    ///
    /// The errors of [`tasks`](Grid::tasks). [`Error::Refused`] also if
    ///
    /// - the number of the share isn't below how many shares there are;
    /// - more than 1048576 chunks of either array hold some of the region along a dimension, unless
    ///   both grids are regular along each dimension.
    ///
    /// # Example
    ///
    /// ```
    /// use zarrs_chunks::{Grid, TaskOptions};
    ///
    /// let three = r#"{"name":"regular","configuration":{"chunk_shape":[3]}}"#;
    /// let two = r#"{"name":"regular","configuration":{"chunk_shape":[2]}}"#;
    /// let (grid, target) = (Grid::new(&[4], three)?, Grid::new(&[4], two)?);
    /// let counts = grid.task_counts(&target, TaskOptions::default(), (1, 2))?;
    /// assert_eq!((counts.chunks_read(), counts.tasks()), (Some(3), Some(2)));
    /// assert_eq!(counts.share(), Some(1..2));
    /// # Ok::<(), zarrs_chunks::Error>(())
    /// ```
    pub fn task_counts(
        &self,
        target: &Grid,
        options: TaskOptions<'_>,
        share: (u64, u64),
    ) -> Result<TaskCounts> {
        TaskCounts::new(self, target, options, share)
    }

    /// Returns what becomes of the chunks if the array gets another shape, in elements, under the
    /// same `chunk_grid`: which are kept as they are stored, rewritten, deleted or created. An
    /// element that both arrays have stays in its chunk, at its place there. It is
    /// [a question](Grid#questions).
    ///
    /// # Errors
    ///
    /// [`Error::Refused`] if there is no grid of the new shape. The shape has another number of
    /// dimensions then, or listed edges don't fit it. Edges of a `rectangular` grid fit if they add
    /// up to the size, and edges of a `rectilinear` grid if they reach it. The library's words
    /// begin with ``field `resize`: ``. [`Error::OutOfMemory`].
    ///
    /// # Example
    ///
    /// ```
    /// use zarrs_chunks::{Encoding, Grid};
    ///
    /// let chunk_grid = r#"{"name":"regular","configuration":{"chunk_shape":[4]}}"#;
    /// let (grid, encoding) = (Grid::new(&[10], chunk_grid)?, Encoding::new(r#""default""#)?);
    /// let changed = grid.changed_chunks(&[5])?;
    /// let deleted = changed.after[0]..changed.before[0];
    /// let keys: Result<Vec<_>, _> = deleted.map(|chunk| encoding.encode(&[chunk])).collect();
    /// assert_eq!(keys?, ["c/2"]);
    /// # Ok::<(), zarrs_chunks::Error>(())
    /// ```
    pub fn changed_chunks(&self, resize: &[u64]) -> Result<ChangedChunks> {
        ChangedChunks::new(self, resize)
    }

    /// Returns how many runs of equal edges the chunks of a `rectilinear` grid are along a
    /// dimension, counted from 0. `None` if there is no such dimension, or if all its chunks have
    /// one edge. It is [a question](Grid#questions).
    ///
    /// # Errors
    ///
    /// [`Error::Refused`] if the grid has another name; [`Error::OutOfMemory`].
    ///
    /// # Example
    ///
    /// ```
    /// use zarrs_chunks::Grid;
    ///
    /// let chunk_grid = r#"{"name":"rectilinear",
    ///     "configuration":{"kind":"inline","chunk_shapes":[[[5,3],[15,2],20,35]]}}"#;
    /// let grid = Grid::new(&[100], chunk_grid)?;
    /// assert_eq!((grid.runs(0)?, grid.runs(1)?), (Some(4), None));
    /// let chunk_grid = r#"{"name":"regular","configuration":{"chunk_shape":[2]}}"#;
    /// let refused = Grid::new(&[100], chunk_grid)?.runs(0).unwrap_err();
    /// assert_eq!(refused.to_string(), "there is no call `runs`");
    /// # Ok::<(), zarrs_chunks::Error>(())
    /// ```
    pub fn runs(&self, dimension: usize) -> Result<Option<u64>> {
        let members = [("of", Member::Number(dimension as u64))];
        questions::ask(self, "runs", &members, |reader| reader.optional(Reader::number))
    }

    /// Returns the `chunk_grid` as the library writes it for a `zarr.json`, as JSON text. It has a
    /// name and a configuration and nothing else, and listed edges of a `rectilinear` grid in runs.
    /// [`chunk_grid`](Grid::chunk_grid) is the text that was given. It is
    /// [a question](Grid#questions).
    ///
    /// # Errors
    ///
    /// [`Error::OutOfMemory`]; [`Error::TooLong`] if the text has more than 1073741823 bytes.
    ///
    /// # Example
    ///
    /// ```
    /// use zarrs_chunks::Grid;
    ///
    /// let chunk_grid = r#"{"name":"rectilinear",
    ///     "configuration":{"kind":"inline","chunk_shapes":[[5,5,[7,1]]]}}"#;
    /// assert_eq!(
    ///     Grid::new(&[17], chunk_grid)?.written_metadata()?,
    ///     r#"{"configuration":{"chunk_shapes":[[[5,2],7]],"kind":"inline"},"name":"rectilinear"}"#
    /// );
    /// # Ok::<(), zarrs_chunks::Error>(())
    /// ```
    pub fn written_metadata(&self) -> Result<String> {
        questions::line(self, "metadata", &[])
    }

    /// All chunks that are counted, in row-major order.
    ///
    /// # Example
    ///
    /// ```
    /// use zarrs_chunks::Grid;
    ///
    /// let chunk_grid = r#"{"name":"regular","configuration":{"chunk_shape":[2,3]}}"#;
    /// let grid = Grid::new(&[4, 6], chunk_grid)?;
    /// let chunks = grid.iter_chunk_indices().collect::<Result<Vec<_>, _>>()?;
    /// assert_eq!(chunks, [[0, 0], [0, 1], [1, 0], [1, 1]]);
    /// # Ok::<(), zarrs_chunks::Error>(())
    /// ```
    #[must_use]
    pub fn iter_chunk_indices(&self) -> ChunkIndices<'_> {
        ChunkIndices::new(self)
    }

    /// Returns the boxes of all chunks that are counted, in row-major order. A chunk that ends past
    /// 18446744073709551615 has no box, and is skipped.
    ///
    /// # Example
    ///
    /// ```
    /// use zarrs_chunks::{ArraySubset, Grid};
    ///
    /// let bounded = r#"{"name":"zarrs.regular_bounded","configuration":{"chunk_shape":[3]}}"#;
    /// let grid = Grid::new(&[5], bounded)?;
    /// let subsets = grid.iter_chunk_subsets().collect::<Result<Vec<_>, _>>()?;
    /// assert_eq!(subsets[1], ArraySubset::new_with_ranges(&[3..5])?);
    /// # Ok::<(), zarrs_chunks::Error>(())
    /// ```
    #[must_use]
    pub fn iter_chunk_subsets(&self) -> ChunkSubsets<'_> {
        ChunkSubsets::new(self)
    }

    /// The same, each box with its chunk.
    ///
    /// # Example
    ///
    /// ```
    /// use zarrs_chunks::{ArraySubset, Grid};
    ///
    /// let bounded = r#"{"name":"zarrs.regular_bounded","configuration":{"chunk_shape":[3]}}"#;
    /// let grid = Grid::new(&[5], bounded)?;
    /// let last = grid.iter_chunk_indices_and_subsets().last().unwrap()?;
    /// assert_eq!(last, (vec![1], ArraySubset::new_with_ranges(&[3..5])?));
    /// # Ok::<(), zarrs_chunks::Error>(())
    /// ```
    #[must_use]
    pub fn iter_chunk_indices_and_subsets(&self) -> ChunkIndicesAndSubsets<'_> {
        ChunkIndicesAndSubsets::new(self)
    }

    /// Whether a list has a number for each dimension.
    fn check_one(&self, argument: &'static str, given: usize) -> Result<()> {
        let wanted = self.dimensionality();
        if given == wanted {
            return Ok(());
        }
        Err(Error::WrongLength { argument, given, wanted })
    }

    /// Whether each of these lists has a number for each dimension and each mark.
    fn check_batch<const COUNT: usize>(
        &self,
        found: &[bool],
        lengths: [(&'static str, usize); COUNT],
    ) -> Result<()> {
        // No slice of numbers is as long as the greatest number.
        let wanted = found.len().saturating_mul(self.dimensionality());
        for (argument, given) in lengths {
            if given != wanted {
                return Err(Error::WrongLength { argument, given, wanted });
            }
        }
        Ok(())
    }
}

impl fmt::Debug for Grid {
    fn fmt(&self, formatter: &mut fmt::Formatter<'_>) -> fmt::Result {
        let mut shown = formatter.debug_struct("Grid");
        shown.field("shape", &self.shape).field("chunk_grid", &self.chunk_grid).finish()
    }
}

/// What the code of a call says.
pub(crate) fn answered(code: i32) -> Result<()> {
    match code {
        ffi::OK => Ok(()),
        _ => Err(Error::of_code(code)),
    }
}

fn is_found([mark]: [u8; 1]) -> bool {
    mark != 0
}

/// Marks as truth values. The library writes bytes, so that no `bool` hangs on what it writes.
pub(crate) fn tell(marks: &[u8], found: &mut [bool]) {
    for (is_found, mark) in found.iter_mut().zip(marks) {
        *is_found = *mark != 0;
    }
}
