//! Zarr chunk grids and chunk keys: in which chunk of an array an element lies, and under which key
//! that chunk is stored.
//!
//! This crate links a proved library as one static archive, and makes its calls safe.
//!
//! ```
//! use zarrs_chunks::{ArraySubset, Encoding, Grid};
//!
//! fn main() -> Result<(), zarrs_chunks::Error> {
//!     // The members `shape`, `chunk_grid` and `chunk_key_encoding` of an array's zarr.json.
//!     let chunk_grid = r#"{"name":"regular","configuration":{"chunk_shape":[1,2,3]}}"#;
//!     let grid = Grid::new(&[5, 7, 52], chunk_grid)?;
//!     let encoding = Encoding::new(r#"{"name":"default","configuration":{"separator":"/"}}"#)?;
//!
//!     // The chunk of an element, and its key.
//!     let chunk = grid.chunk_indices(&[3, 5, 50])?.unwrap();
//!     assert_eq!(encoding.encode(&chunk)?, "c/3/2/16");
//!
//!     // The same of many elements at once, here two.
//!     let (mut chunks, mut found) = (vec![0; 6], vec![false; 2]);
//!     grid.chunk_indices_of(&[3, 5, 50, 0, 0, 0], &mut chunks, &mut found)?;
//!     let keys = encoding.encode_all(found.len(), &chunks)?;
//!     assert_eq!(keys.iter().collect::<Vec<_>>(), ["c/3/2/16", "c/0/0/0"]);
//!
//!     // What to read for a box of elements.
//!     let subset = ArraySubset::new_with_ranges(&[3..4, 5..6, 48..52])?;
//!     for part in grid.parts(&encoding, &subset)?.unwrap() {
//!         let part = part?;
//!         println!("{}: from {:?}, {:?} elements", part.key, part.in_chunk, part.shape);
//!     }
//!     Ok(())
//! }
//! ```
//!
//! # What is asked
//!
//! [`Grid`] answers for elements, chunks and boxes of them, and [`Encoding`] for keys. For one list
//! there are methods with the names that zarrs has. For many lists at once there are batches, which
//! write into slices of the caller's.
//!
//! - [`Grid::parts`] is the plan of reading a box.
//! - [`Grid::tasks`] gives the tasks that rechunk an array or copy a region of it to another array.
//! - The three `iter_` methods walk over all chunks. These, the plan and the tasks are read page by
//!   page.
//! - [`Grid::task_counts`] says how much tasks read and write, and which tasks are in a share.
//! - [`Grid::changed_chunks`] says which chunks another shape of the array changes.
//! - [`byte_ranges`] says which bytes of an uncompressed chunk hold a part.
//! - [`answer`] takes any question of the library as text. Some methods ask so themselves, and
//!   [say so](Grid#questions).
//!
//! Sizes, indices, origins, shapes and places count elements. Chunks are numbered from 0 along each
//! dimension. Numbers are `u64`; no sum or product wraps. An array may have any number of
//! dimensions, also none.
//!
//! # Errors
//!
//! If the library refuses something, an [`Error`] has its own words. Too little memory is an error
//! too, and nothing panics; `clone` alone takes memory as all of `std` does. After an error
//! everything can be used as before.
//!
//! An item of an iterator may be an error, and is the last one then. `skip` of some versions of
//! Rust, as 1.63, drops the item before the first one that it gives, and an error with it:
//! [`nth`](Iterator::nth) returns it.
//!
//! # Threads
//!
//! Grids and encodings never change: any number of threads may ask them at once. A thread that
//! calls needs [`STACK`] bytes of stack, which is far less than threads have unless they are given
//! less.
//!
//! # Linking
//!
//! The library is `libzarrs_chunks.a`, for 64-bit Linux on x86-64-v2 processors. The build looks
//! for it in the folder that the environment variable `ZARRS_CHUNKS_LIB_DIR` names. If this isn't
//! set, it looks in `../../lib` beside the crate, as in a release, and then in `../../out/llvm`,
//! where `bindings/build.py` puts it.

#![deny(unsafe_op_in_unsafe_fn, missing_docs)]
#![deny(unsafe_code)]
#![warn(missing_debug_implementations)]

mod answers;
mod bytes;
#[allow(unsafe_code)]
mod calls;
mod changes;
mod encoding;
mod error;
mod ffi;
mod grid;
mod keys;
mod library;
mod memory;
mod pages;
mod parts;
mod questions;
mod reader;
mod subset;
mod task_counts;
mod tasks;
mod walks;

pub use answers::answer;
pub use bytes::{byte_ranges, ByteRanges, MemoryOrder, Ranges};
pub use changes::ChangedChunks;
pub use encoding::Encoding;
pub use error::{Error, Result};
pub use grid::{Counted, Grid, Home, Located};
pub use keys::Keys;
pub use library::{abi_version, version, ABI_VERSION, STACK};
pub use parts::{Part, Parts};
pub use subset::ArraySubset;
pub use task_counts::TaskCounts;
pub use tasks::{Destination, Source, Task, TaskOptions, TaskOrder, Tasks};
pub use walks::{ChunkIndices, ChunkIndicesAndSubsets, ChunkSubsets};
