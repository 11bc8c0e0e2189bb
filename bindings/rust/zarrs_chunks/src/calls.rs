//! The calls of the library over slices, each safe. No other module has an `unsafe` block.
//!
//! The header and `bindings/README.md` demand of a caller:
//!
//! - **Items.** A pointer points to as many items as its length says; with 0 items it may be null.
//!   Every pointer here is a slice's, with its length. If a slice is empty, [`given`] and
//!   [`written`] pass null. The header allows null by name, and says nothing of the dangling
//!   pointer of an empty slice. A pointer to one number or to a struct is a local variable's.
//! - **Alignment.** Buffers are aligned to their type, as slices and variables are.
//! - **Apart.** What is written to overlaps no other buffer of the call, and no other thread
//!   touches it until the call returns. It is borrowed mutably for as long, so both hold. What is
//!   read is borrowed, so nobody changes it meanwhile.
//!
//! They also demand of the thread and the process:
//!
//! - A thread that calls has [`STACK`](crate::STACK) bytes of stack. The crate's page passes this
//!   on to those who make threads with less. If a thread has too little, the guard page behind its
//!   stack ends the process.
//! - No call is made from a signal handler or from the forked child of a process with threads, and
//!   none with traps for floats. Safe Rust can do none of these: what installs handlers, runs code
//!   in a forked child or sets such traps is `unsafe`, and its caller sees to it.
//! - The processor is an x86-64-v2 one: `library::check` refuses others, before a grid, an encoding
//!   or an answer is made.
//!
//! The library keeps no pointer, so nothing is lent for longer than a call.

use std::ptr;

use crate::ffi;
use crate::subset::ArraySubset;

/// The pointer of what a call reads.
fn given<T>(items: &[T]) -> *const T {
    if items.is_empty() {
        ptr::null()
    } else {
        items.as_ptr()
    }
}

/// The pointer of what a call writes to.
fn written<T>(items: &mut [T]) -> *mut T {
    if items.is_empty() {
        ptr::null_mut()
    } else {
        items.as_mut_ptr()
    }
}

pub(crate) fn abi_version() -> i32 {
    // SAFETY: the call takes nothing, and demands nothing of what it is given.
    unsafe { ffi::zarrs_abi_version() }
}

/// The code, and how many bytes the version has.
pub(crate) fn version(version: &mut [u8]) -> (i32, usize) {
    let mut needed = 0;
    // SAFETY: items and alignment: the pointer is a slice's, with its length, or null with 0
    // items; `needed` is a variable of this function. Apart: both are borrowed mutably.
    let code = unsafe { ffi::zarrs_version(written(version), version.len(), &mut needed) };
    (code, needed)
}

/// The code, and how many numbers the grid has.
pub(crate) fn prepare_grid(shape: &[u64], chunk_grid: &str, numbers: &mut [u64]) -> (i32, usize) {
    let mut needed = 0;
    // SAFETY: items and alignment: each pointer is a slice's, with its length, or null with 0
    // items; `needed` is a variable of this function. Apart: `numbers` and `needed` are borrowed
    // mutably.
    let code = unsafe {
        ffi::zarrs_prepare_grid(
            given(shape),
            shape.len(),
            given(chunk_grid.as_bytes()),
            chunk_grid.len(),
            written(numbers),
            numbers.len(),
            &mut needed,
        )
    };
    (code, needed)
}

pub(crate) fn grid_shape(numbers: &[u64], grid_shape: &mut [u64]) -> i32 {
    // SAFETY: items and alignment: each pointer is a slice's, with its length, or null with 0
    // items. Apart: `grid_shape` is borrowed mutably. Numbers may be any.
    unsafe {
        ffi::zarrs_prepared_grid_shape(
            given(numbers),
            numbers.len(),
            written(grid_shape),
            grid_shape.len(),
        )
    }
}

pub(crate) fn chunk_indices_of(
    numbers: &[u64],
    indices: &[u64],
    chunks: &mut [u64],
    found: &mut [u8],
) -> i32 {
    // SAFETY: items and alignment: each pointer is a slice's, with its length, or null with 0
    // items. Apart: `chunks` and `found` are borrowed mutably. Numbers may be any, and lengths too.
    unsafe {
        ffi::zarrs_prepared_chunk_indices_of(
            given(numbers),
            numbers.len(),
            given(indices),
            indices.len(),
            written(chunks),
            chunks.len(),
            written(found),
            found.len(),
        )
    }
}

pub(crate) fn homes_of(
    numbers: &[u64],
    indices: &[u64],
    chunks: &mut [u64],
    places: &mut [u64],
    found: &mut [u8],
) -> i32 {
    // SAFETY: items and alignment: each pointer is a slice's, with its length, or null with 0
    // items. Apart: `chunks`, `places` and `found` are borrowed mutably. Numbers may be any, and
    // lengths too.
    unsafe {
        ffi::zarrs_prepared_homes_of(
            given(numbers),
            numbers.len(),
            given(indices),
            indices.len(),
            written(chunks),
            chunks.len(),
            written(places),
            places.len(),
            written(found),
            found.len(),
        )
    }
}

pub(crate) fn chunk_boxes_of(
    numbers: &[u64],
    chunks: &[u64],
    origins: &mut [u64],
    shapes: &mut [u64],
    found: &mut [u8],
) -> i32 {
    // SAFETY: items and alignment: each pointer is a slice's, with its length, or null with 0
    // items. Apart: `origins`, `shapes` and `found` are borrowed mutably. Numbers may be any, and
    // lengths too.
    unsafe {
        ffi::zarrs_prepared_chunk_boxes_of(
            given(numbers),
            numbers.len(),
            given(chunks),
            chunks.len(),
            written(origins),
            origins.len(),
            written(shapes),
            shapes.len(),
            written(found),
            found.len(),
        )
    }
}

/// The code, and after `NOT_A_BOX` the number of the first invalid box.
pub(crate) fn covers_of(
    numbers: &[u64],
    [starts, shapes]: [&[u64]; 2],
    first_chunks: &mut [u64],
    chunk_counts: &mut [u64],
    found: &mut [u8],
) -> (i32, usize) {
    let mut wrong = 0;
    // SAFETY: items and alignment: each pointer is a slice's, with its length, or null with 0
    // items; `wrong` is a variable of this function. Apart: `first_chunks`, `chunk_counts`, `found`
    // and `wrong` are borrowed mutably. Numbers may be any, and lengths too.
    let code = unsafe {
        ffi::zarrs_prepared_covers_of(
            given(numbers),
            numbers.len(),
            given(starts),
            starts.len(),
            given(shapes),
            shapes.len(),
            written(first_chunks),
            first_chunks.len(),
            written(chunk_counts),
            chunk_counts.len(),
            written(found),
            found.len(),
            &mut wrong,
        )
    };
    (code, wrong)
}

/// The code, and how many numbers the encoding has.
pub(crate) fn prepare_encoding(chunk_key_encoding: &str, numbers: &mut [u64]) -> (i32, usize) {
    let mut needed = 0;
    // SAFETY: items and alignment: each pointer is a slice's, with its length, or null with 0
    // items; `needed` is a variable of this function. Apart: `numbers` and `needed` are borrowed
    // mutably.
    let code = unsafe {
        ffi::zarrs_prepare_encoding(
            given(chunk_key_encoding.as_bytes()),
            chunk_key_encoding.len(),
            written(numbers),
            numbers.len(),
            &mut needed,
        )
    };
    (code, needed)
}

/// The code, and how many bytes the keys have.
pub(crate) fn keys_of(
    numbers: &[u64],
    dimensionality: usize,
    chunks: &[u64],
    text: &mut [u8],
    offsets: &mut [u64],
) -> (i32, usize) {
    let mut needed = 0;
    // SAFETY: items and alignment: each pointer is a slice's, with its length, or null with 0
    // items; `needed` is a variable of this function. Apart: `text`, `offsets` and `needed` are
    // borrowed mutably. Numbers may be any, and lengths too.
    let code = unsafe {
        ffi::zarrs_prepared_keys_of(
            given(numbers),
            numbers.len(),
            dimensionality,
            given(chunks),
            chunks.len(),
            written(text),
            text.len(),
            written(offsets),
            offsets.len(),
            &mut needed,
        )
    };
    (code, needed)
}

/// The code, and after `WRONG_OFFSETS` the number of the first key whose offsets are wrong.
pub(crate) fn chunks_of_keys(
    numbers: &[u64],
    dimensionality: usize,
    text: &[u8],
    offsets: &[u64],
    chunks: &mut [u64],
    found: &mut [u8],
) -> (i32, usize) {
    let mut wrong = 0;
    // SAFETY: items and alignment: each pointer is a slice's, with its length, or null with 0
    // items; `wrong` is a variable of this function. Apart: `chunks`, `found` and `wrong` are
    // borrowed mutably. Numbers and offsets may be any, and lengths too.
    let code = unsafe {
        ffi::zarrs_prepared_chunks_of_keys(
            given(numbers),
            numbers.len(),
            dimensionality,
            given(text),
            text.len(),
            given(offsets),
            offsets.len(),
            written(chunks),
            chunks.len(),
            written(found),
            found.len(),
            &mut wrong,
        )
    };
    (code, wrong)
}

/// An array as its `zarr.json` has it.
pub(crate) struct StoredArray<'a> {
    pub(crate) shape: &'a [u64],
    pub(crate) chunk_grid: &'a str,
    pub(crate) chunk_key_encoding: &'a str,
}

/// Where the parts of a plan are written to.
pub(crate) struct PartBuffers<'a> {
    pub(crate) chunks: &'a mut [u64],
    pub(crate) in_chunk: &'a mut [u64],
    pub(crate) in_selection: &'a mut [u64],
    pub(crate) shapes: &'a mut [u64],
    pub(crate) text: &'a mut [u8],
    pub(crate) offsets: &'a mut [u64],
}

/// What a call says of the parts of a plan. It is how many bytes the keys have, how many parts are
/// written, how many the plan has, and whether there is a plan.
pub(crate) struct PartsTold {
    pub(crate) needed: usize,
    pub(crate) count: usize,
    pub(crate) in_all: u64,
    pub(crate) is_found: bool,
}

pub(crate) fn parts_of(
    array: &StoredArray<'_>,
    subset: &ArraySubset,
    first: u64,
    buffers: PartBuffers<'_>,
) -> (i32, PartsTold) {
    let stored = ffi::StoredArray {
        shape: given(array.shape),
        shape_len: array.shape.len(),
        chunk_grid: given(array.chunk_grid.as_bytes()),
        chunk_grid_len: array.chunk_grid.len(),
        chunk_key_encoding: given(array.chunk_key_encoding.as_bytes()),
        chunk_key_encoding_len: array.chunk_key_encoding.len(),
    };
    let elements = ffi::ElementBox {
        start: given(subset.start()),
        start_len: subset.start().len(),
        shape: given(subset.shape()),
        shape_len: subset.shape().len(),
    };
    let mut told = ffi::PartBuffers {
        chunks: written(buffers.chunks),
        chunks_len: buffers.chunks.len(),
        in_chunk: written(buffers.in_chunk),
        in_chunk_len: buffers.in_chunk.len(),
        in_selection: written(buffers.in_selection),
        in_selection_len: buffers.in_selection.len(),
        shapes: written(buffers.shapes),
        shapes_len: buffers.shapes.len(),
        text: written(buffers.text),
        text_len: buffers.text.len(),
        offsets: written(buffers.offsets),
        offsets_len: buffers.offsets.len(),
        needed: 0,
        count: 0,
        in_all: 0,
        found: 0,
    };
    // SAFETY: items and alignment: the structs are variables of this function, and each pointer in
    // them is a slice's, with its length, or null with 0 items. Apart: the slices of `told`
    // come from `buffers`, which borrows each of them mutably until this function returns. Lengths
    // may be any.
    let code = unsafe { ffi::zarrs_parts_of(&stored, &elements, first, &mut told) };
    let told = PartsTold {
        needed: told.needed,
        count: told.count,
        in_all: told.in_all,
        is_found: told.found != 0,
    };
    (code, told)
}

/// The code, and how many bytes the line has.
pub(crate) fn answer(question: &str, line: &mut [u8]) -> (i32, usize) {
    let mut needed = 0;
    // SAFETY: items and alignment: each pointer is a slice's, with its length, or null with 0
    // items; `needed` is a variable of this function. Apart: `line` and `needed` are borrowed
    // mutably.
    let code = unsafe {
        ffi::zarrs_answer(
            given(question.as_bytes()),
            question.len(),
            written(line),
            line.len(),
            &mut needed,
        )
    };
    (code, needed)
}

/// The code of the fault, and how many bytes its words have.
pub(crate) fn grid_fault(shape: &[u64], chunk_grid: &str, words: &mut [u8]) -> (i32, usize) {
    let mut needed = 0;
    // SAFETY: items and alignment: each pointer is a slice's, with its length, or null with 0
    // items; `needed` is a variable of this function. Apart: `words` and `needed` are borrowed
    // mutably.
    let code = unsafe {
        ffi::zarrs_grid_fault(
            given(shape),
            shape.len(),
            given(chunk_grid.as_bytes()),
            chunk_grid.len(),
            written(words),
            words.len(),
            &mut needed,
        )
    };
    (code, needed)
}

/// The code of the fault, and how many bytes its words have.
pub(crate) fn encoding_fault(chunk_key_encoding: &str, words: &mut [u8]) -> (i32, usize) {
    let mut needed = 0;
    // SAFETY: items and alignment: each pointer is a slice's, with its length, or null with 0
    // items; `needed` is a variable of this function. Apart: `words` and `needed` are borrowed
    // mutably.
    let code = unsafe {
        ffi::zarrs_encoding_fault(
            given(chunk_key_encoding.as_bytes()),
            chunk_key_encoding.len(),
            written(words),
            words.len(),
            &mut needed,
        )
    };
    (code, needed)
}

/// The code of this call, and how many bytes the words have.
pub(crate) fn code_words(code: i32, words: &mut [u8]) -> (i32, usize) {
    let mut needed = 0;
    // SAFETY: items and alignment: the pointer is a slice's, with its length, or null with 0
    // items; `needed` is a variable of this function. Apart: `words` and `needed` are borrowed
    // mutably. The code may be any number.
    let ended = unsafe { ffi::zarrs_code_words(code, written(words), words.len(), &mut needed) };
    (ended, needed)
}
