//! What this crate uses of `zarrs_chunks.h`, in the order of the header, which says what each call
//! takes and writes. An array is a pointer and the number of its items.

/// The version of the header that has these declarations.
pub(crate) const ABI_VERSION: i32 = 3;
/// How many bytes of stack a call needs at most.
pub(crate) const STACK: usize = 163_840;

pub(crate) const OK: i32 = 0;
pub(crate) const OUT_OF_MEMORY: i32 = -1;
pub(crate) const NOT_JSON: i32 = -3;
pub(crate) const NOT_METADATA: i32 = -4;
pub(crate) const REFUSED: i32 = -5;
pub(crate) const NOT_A_BOX: i32 = -6;
pub(crate) const WRONG_OFFSETS: i32 = -7;
pub(crate) const SHORT_BUFFER: i32 = -8;

#[repr(C)]
pub(crate) struct StoredArray {
    pub(crate) shape: *const u64,
    pub(crate) shape_len: usize,
    pub(crate) chunk_grid: *const u8,
    pub(crate) chunk_grid_len: usize,
    pub(crate) chunk_key_encoding: *const u8,
    pub(crate) chunk_key_encoding_len: usize,
}

#[repr(C)]
pub(crate) struct ElementBox {
    pub(crate) start: *const u64,
    pub(crate) start_len: usize,
    pub(crate) shape: *const u64,
    pub(crate) shape_len: usize,
}

#[repr(C)]
pub(crate) struct PartBuffers {
    pub(crate) chunks: *mut u64,
    pub(crate) chunks_len: usize,
    pub(crate) in_chunk: *mut u64,
    pub(crate) in_chunk_len: usize,
    pub(crate) in_selection: *mut u64,
    pub(crate) in_selection_len: usize,
    pub(crate) shapes: *mut u64,
    pub(crate) shapes_len: usize,
    pub(crate) text: *mut u8,
    pub(crate) text_len: usize,
    pub(crate) offsets: *mut u64,
    pub(crate) offsets_len: usize,
    pub(crate) needed: usize,
    pub(crate) count: usize,
    pub(crate) in_all: u64,
    pub(crate) found: u8,
}

extern "C" {
    pub(crate) fn zarrs_abi_version() -> i32;

    pub(crate) fn zarrs_version(version: *mut u8, version_len: usize, needed: *mut usize) -> i32;

    pub(crate) fn zarrs_prepare_grid(
        shape: *const u64,
        shape_len: usize,
        chunk_grid: *const u8,
        chunk_grid_len: usize,
        numbers: *mut u64,
        numbers_len: usize,
        needed: *mut usize,
    ) -> i32;

    pub(crate) fn zarrs_prepared_grid_shape(
        numbers: *const u64,
        numbers_len: usize,
        grid_shape: *mut u64,
        grid_shape_len: usize,
    ) -> i32;

    pub(crate) fn zarrs_prepared_chunk_indices_of(
        numbers: *const u64,
        numbers_len: usize,
        indices: *const u64,
        indices_len: usize,
        chunks: *mut u64,
        chunks_len: usize,
        found: *mut u8,
        found_len: usize,
    ) -> i32;

    pub(crate) fn zarrs_prepared_homes_of(
        numbers: *const u64,
        numbers_len: usize,
        indices: *const u64,
        indices_len: usize,
        chunks: *mut u64,
        chunks_len: usize,
        places: *mut u64,
        places_len: usize,
        found: *mut u8,
        found_len: usize,
    ) -> i32;

    pub(crate) fn zarrs_prepared_chunk_boxes_of(
        numbers: *const u64,
        numbers_len: usize,
        chunks: *const u64,
        chunks_len: usize,
        origins: *mut u64,
        origins_len: usize,
        shapes: *mut u64,
        shapes_len: usize,
        found: *mut u8,
        found_len: usize,
    ) -> i32;

    pub(crate) fn zarrs_prepared_covers_of(
        numbers: *const u64,
        numbers_len: usize,
        starts: *const u64,
        starts_len: usize,
        shapes: *const u64,
        shapes_len: usize,
        first_chunks: *mut u64,
        first_chunks_len: usize,
        chunk_counts: *mut u64,
        chunk_counts_len: usize,
        found: *mut u8,
        found_len: usize,
        wrong: *mut usize,
    ) -> i32;

    pub(crate) fn zarrs_prepare_encoding(
        chunk_key_encoding: *const u8,
        chunk_key_encoding_len: usize,
        numbers: *mut u64,
        numbers_len: usize,
        needed: *mut usize,
    ) -> i32;

    pub(crate) fn zarrs_prepared_keys_of(
        numbers: *const u64,
        numbers_len: usize,
        dimensionality: usize,
        chunks: *const u64,
        chunks_len: usize,
        text: *mut u8,
        text_len: usize,
        offsets: *mut u64,
        offsets_len: usize,
        needed: *mut usize,
    ) -> i32;

    pub(crate) fn zarrs_prepared_chunks_of_keys(
        numbers: *const u64,
        numbers_len: usize,
        dimensionality: usize,
        text: *const u8,
        text_len: usize,
        offsets: *const u64,
        offsets_len: usize,
        chunks: *mut u64,
        chunks_len: usize,
        found: *mut u8,
        found_len: usize,
        wrong: *mut usize,
    ) -> i32;

    pub(crate) fn zarrs_parts_of(
        array: *const StoredArray,
        elements: *const ElementBox,
        first: u64,
        buffers: *mut PartBuffers,
    ) -> i32;

    pub(crate) fn zarrs_answer(
        question: *const u8,
        question_len: usize,
        line: *mut u8,
        line_len: usize,
        needed: *mut usize,
    ) -> i32;

    pub(crate) fn zarrs_grid_fault(
        shape: *const u64,
        shape_len: usize,
        chunk_grid: *const u8,
        chunk_grid_len: usize,
        words: *mut u8,
        words_len: usize,
        needed: *mut usize,
    ) -> i32;

    pub(crate) fn zarrs_encoding_fault(
        chunk_key_encoding: *const u8,
        chunk_key_encoding_len: usize,
        words: *mut u8,
        words_len: usize,
        needed: *mut usize,
    ) -> i32;

    pub(crate) fn zarrs_code_words(
        code: i32,
        words: *mut u8,
        words_len: usize,
        needed: *mut usize,
    ) -> i32;
}
