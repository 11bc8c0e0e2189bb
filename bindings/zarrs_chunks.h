/* Zarr chunk grids and chunk keys: in which chunk of an array an element lies, and under which key that chunk is stored.
 *
 * A batch is n lists of d numbers, one after another in one array, where d is the number of dimensions. Numbers are uint64_t: sizes, indices,
 * origins, shapes and places count elements, chunks are numbered from 0 along each dimension. An array is passed as a pointer and how many
 * items it has; with 0 items the pointer may be null. The call of the plan takes structs of such arrays.
 *
 * A grid is the array's shape (d numbers) and the text of the member `chunk_grid` of its zarr.json; an encoding is the text of the member
 * `chunk_key_encoding`. Texts are UTF-8 and end at their length, not at a zero byte. zarrs_prepare_grid and zarrs_prepare_encoding write a grid
 * and an encoding as numbers, which the caller keeps. The batches, `zarrs_prepared_...`, take these numbers. No call keeps anything, so calls may
 * run in several threads at once.
 *
 * Each call but zarrs_abi_version returns ZARRS_OK or one of the codes below. After ZARRS_OK and ZARRS_SHORT_BUFFER, the rest of a buffer is as it
 * was. The rest is what follows a text, the numbers of a grid or an encoding, or the parts that are written. After any other code, the buffers that
 * are written to hold anything, but nothing is written outside of them. If a call still says something of its refusal, its comment says so.
 * zarrs_code_words says in words what a code is, zarrs_grid_fault and zarrs_encoding_fault what metadata lack.
 *
 * If several things are wrong, a call reports the first of them, in this order, which is the same for all calls:
 *
 * 1. the metadata of the grid: ZARRS_NOT_JSON, ZARRS_NOT_METADATA, ZARRS_REFUSED; then the metadata of the encoding, by the same three codes; or the
 *    numbers of a prepared grid or encoding: ZARRS_NOT_PREPARED
 * 2. the lengths of the arrays: ZARRS_WRONG_LENGTH
 * 3. a start and a shape that make no box, in a batch for some list: ZARRS_NOT_A_BOX
 * 4. the offsets of some text: ZARRS_WRONG_OFFSETS
 * 5. the room for the text of an answer, or for the numbers of a grid or an encoding: ZARRS_SHORT_BUFFER
 *
 * ZARRS_OUT_OF_MEMORY may come in place of any answer.
 *
 * Some calls have `found`, an array of n bytes. The byte of a list becomes 1 if there is an answer to the list, and 0 if not. After ZARRS_OK, the
 * numbers of an answer that isn't there stay as they were.
 *
 * The caller must make sure that each pointer points to as many items as the call is given for it, and that they are aligned to their type. A buffer
 * that is written to must overlap no other buffer of the call, and no other thread may touch it until the call returns. Until then, no thread may
 * change a text that is read: it is read more than once. Besides:
 *
 * - A call needs at most ZARRS_STACK bytes of stack. Most of that is for nested metadata: JSON is read 127 deep, also in members that say nothing.
 *   Metadata that say nothing but a grid or an encoding need a quarter of it.
 * - Metadata and questions may hold numbers that aren't whole. Reading them may raise flags of floating-point exceptions, as `1e999` raises the flag of
 *   an overflow. If you trap these exceptions, hold them back around a call: feholdexcept before, fesetenv after it.
 * - The library is built for x86-64-v2: processors with SSE4.2, SSSE3, POPCNT and CMPXCHG16B.
 */
#ifndef ZARRS_CHUNKS_H
#define ZARRS_CHUNKS_H

#include <stddef.h>
#include <stdint.h>

#ifdef __cplusplus
extern "C" {
#endif

/* The version of this interface. zarrs_abi_version returns the interface version of the library that is loaded; the two must be equal. */
#define ZARRS_ABI_VERSION 3

/* The version of the library that this header belongs to. zarrs_version writes the version of the library that is loaded. */
#define ZARRS_VERSION "0.1.0"

/* How many bytes of stack a call needs at most. */
#define ZARRS_STACK 163840

/* The call has answered. */
#define ZARRS_OK 0
/* Out of memory. */
#define ZARRS_OUT_OF_MEMORY (-1)
/* An array has more or fewer items than the others demand. */
#define ZARRS_WRONG_LENGTH (-2)
/* The metadata isn't a text of JSON. */
#define ZARRS_NOT_JSON (-3)
/* The metadata is JSON, but not an extension's metadata. */
#define ZARRS_NOT_METADATA (-4)
/* The grid or the encoding is refused. zarrs_grid_fault and zarrs_encoding_fault give the words. */
#define ZARRS_REFUSED (-5)
/* A start and a shape make no box: it ends past 18446744073709551615. */
#define ZARRS_NOT_A_BOX (-6)
/* Offsets descend, or lie past the text. */
#define ZARRS_WRONG_OFFSETS (-7)
/* The text of the answer is longer than its buffer, or a grid or an encoding has more numbers than its buffer. `needed` says how long the text
 * is, or how many numbers there are. */
#define ZARRS_SHORT_BUFFER (-8)
/* The numbers aren't a prepared grid's, or a prepared encoding's. */
#define ZARRS_NOT_PREPARED (-9)

/* Returns the version of the interface of the library that is loaded. */
int32_t zarrs_abi_version(void);

/* Writes the version of the library that is loaded, as text. *needed gets how many bytes it has. ZARRS_SHORT_BUFFER if version is shorter: nothing is
 * written to it. */
int32_t zarrs_version(
    uint8_t *version, size_t version_len,
    size_t *needed);

/* Writes the numbers of a grid, for the five calls below.
 *
 *   needed   how many numbers there are: 2, 4 for each dimension, and 3 for each run of equal edges. One edge for all chunks is one run, or
 *            none if there is no chunk
 *
 * ZARRS_SHORT_BUFFER if numbers has room for fewer: nothing is written to it, but needed is written.
 *
 * The five calls take all numbers that zarrs_prepare_grid wrote. Their layout may change, so numbers are for the version that wrote them. Any other
 * numbers are safe: a call ends with ZARRS_NOT_PREPARED, or its answer means nothing. */
int32_t zarrs_prepare_grid(
    const uint64_t *shape, size_t shape_len,
    const uint8_t *chunk_grid, size_t chunk_grid_len,
    uint64_t *numbers, size_t numbers_len,
    size_t *needed);

/* Writes how many chunks are counted along each dimension: d numbers. */
int32_t zarrs_prepared_grid_shape(
    const uint64_t *numbers, size_t numbers_len,
    uint64_t *grid_shape, size_t grid_shape_len);

/* Writes the chunk of each element.
 *
 *   indices   n * d   the elements
 *   chunks    n * d   the chunk that holds each element
 *   found     n       0 if no chunk holds the element */
int32_t zarrs_prepared_chunk_indices_of(
    const uint64_t *numbers, size_t numbers_len,
    const uint64_t *indices, size_t indices_len,
    uint64_t *chunks, size_t chunks_len,
    uint8_t *found, size_t found_len);

/* Writes the chunk of each element, and the element's place in it.
 *
 *   indices   n * d   the elements
 *   chunks    n * d   the chunk that holds each element
 *   places    n * d   the element's index, counted from the chunk's first element
 *   found     n       0 if no chunk holds the element */
int32_t zarrs_prepared_homes_of(
    const uint64_t *numbers, size_t numbers_len,
    const uint64_t *indices, size_t indices_len,
    uint64_t *chunks, size_t chunks_len,
    uint64_t *places, size_t places_len,
    uint8_t *found, size_t found_len);

/* Writes the box of each chunk.
 *
 *   chunks    n * d   the chunks
 *   origins   n * d   the index of the chunk's first element
 *   shapes    n * d   how many elements the chunk has along each dimension
 *   found     n       0 if there is no such chunk, or if it ends past 18446744073709551615 */
int32_t zarrs_prepared_chunk_boxes_of(
    const uint64_t *numbers, size_t numbers_len,
    const uint64_t *chunks, size_t chunks_len,
    uint64_t *origins, size_t origins_len,
    uint64_t *shapes, size_t shapes_len,
    uint8_t *found, size_t found_len);

/* Writes the cover of each box of elements: the box of all chunks that hold some of them. The cover of an empty box has no chunks.
 *
 *   starts         n * d   the first index of each box
 *   shapes         n * d   the shape of each box
 *   first_chunks   n * d   the first chunk of the cover
 *   chunk_counts   n * d   how many chunks the cover has along each dimension
 *   found          n       0 if the first or the last element of the box lies in no chunk
 *   wrong          1       after ZARRS_NOT_A_BOX: the number of the first box that ends past 18446744073709551615, counted from 0 */
int32_t zarrs_prepared_covers_of(
    const uint64_t *numbers, size_t numbers_len,
    const uint64_t *starts, size_t starts_len,
    const uint64_t *shapes, size_t shapes_len,
    uint64_t *first_chunks, size_t first_chunks_len,
    uint64_t *chunk_counts, size_t chunk_counts_len,
    uint8_t *found, size_t found_len,
    size_t *wrong);

/* Writes the numbers of an encoding, for the two calls below. Keep and use them as the numbers of a grid.
 *
 *   needed   how many numbers there are: 3, and one for each byte of the suffix
 *
 * ZARRS_SHORT_BUFFER if numbers has room for fewer: nothing is written to it, but needed is written. */
int32_t zarrs_prepare_encoding(
    const uint8_t *chunk_key_encoding, size_t chunk_key_encoding_len,
    uint64_t *numbers, size_t numbers_len,
    size_t *needed);

/* Writes the key of each chunk, one after another, without a byte between two.
 *
 *   chunks    n * d   the chunks
 *   text      needed  the keys
 *   offsets   n + 1   where each key begins in the text, in bytes, and where the last one ends
 *   needed    1       how many bytes the keys have
 *
 * ZARRS_SHORT_BUFFER if text is shorter than the keys: nothing is written to text, but offsets and needed are written. */
int32_t zarrs_prepared_keys_of(
    const uint64_t *numbers, size_t numbers_len,
    size_t dimensionality,
    const uint64_t *chunks, size_t chunks_len,
    uint8_t *text, size_t text_len,
    uint64_t *offsets, size_t offsets_len,
    size_t *needed);

/* Writes the chunk of each key: the chunk with d numbers that has this key. The chunk may lie outside of the grid.
 *
 *   text      any     the keys, one after another
 *   offsets   n + 1   as zarrs_prepared_keys_of writes them
 *   chunks    n * d   the chunk of each key
 *   found     n       0 if a text is not the key of a chunk with d numbers
 *   wrong     1       after ZARRS_WRONG_OFFSETS: the number of the first key whose offsets descend or lie past the text, counted from 0 */
int32_t zarrs_prepared_chunks_of_keys(
    const uint64_t *numbers, size_t numbers_len,
    size_t dimensionality,
    const uint8_t *text, size_t text_len,
    const uint64_t *offsets, size_t offsets_len,
    uint64_t *chunks, size_t chunks_len,
    uint8_t *found, size_t found_len,
    size_t *wrong);

/* An array as its zarr.json has it: its shape, and its members chunk_grid and chunk_key_encoding as text. */
struct zarrs_stored_array {
    const uint64_t *shape; size_t shape_len;
    const uint8_t *chunk_grid; size_t chunk_grid_len;
    const uint8_t *chunk_key_encoding; size_t chunk_key_encoding_len;
};

/* A box of elements: its first index and its shape, of d numbers each. */
struct zarrs_element_box {
    const uint64_t *start; size_t start_len;
    const uint64_t *shape; size_t shape_len;
};

/* Where zarrs_parts_of writes at most n parts, and what it says of them. The caller sets each pointer and its length, which stay as they are. The
 * four numbers at the end may hold anything before the call. */
struct zarrs_part_buffers {
    uint64_t *chunks; size_t chunks_len; /* n * d: the chunk of each part */
    uint64_t *in_chunk; size_t in_chunk_len; /* n * d: the part's first element, counted from the chunk's first element */
    uint64_t *in_selection; size_t in_selection_len; /* n * d: the same, counted from the box's first element */
    uint64_t *shapes; size_t shapes_len; /* n * d: the part's shape */
    uint8_t *text; size_t text_len; /* the keys of the chunks, as zarrs_prepared_keys_of writes them */
    uint64_t *offsets; size_t offsets_len; /* n + 1: where each key begins in the text, and at last where the last one ends */
    size_t needed; /* how many bytes the keys have */
    size_t count; /* how many parts are written */
    uint64_t in_all; /* how many parts the plan has, or 18446744073709551615 if it has more: the parts past that number can't be asked for */
    uint8_t found; /* 0 if the first or the last element of the box lies in no chunk, and then the three numbers above are 0; 1 if not */
};

/* Writes the plan of reading a box of elements: a part for each chunk that holds some of the box, in row-major order of the chunks. It begins with
 * the part with the number `first`, counted from 0, and writes as many parts as there is room for. The parts before `first` take no time. An empty
 * box has a plan without parts. ZARRS_NOT_A_BOX if the box ends past 18446744073709551615. ZARRS_SHORT_BUFFER if the text is shorter than the keys:
 * all but the text is still written. */
int32_t zarrs_parts_of(
    const struct zarrs_stored_array *array,
    const struct zarrs_element_box *elements,
    uint64_t first,
    struct zarrs_part_buffers *buffers);

/* Writes the line that answers a question, which is a JSON object as crates/chunkcalls/CALLING.md says. The line is an answer as compact JSON, or
 * `refused:` or `unreadable:` and why; a line feed ends it. *needed gets how many bytes it has. ZARRS_SHORT_BUFFER if line is shorter: nothing is
 * written to it.
 *
 * A walk ends when its items alone are longer than the buffer. So a call takes no more memory than in proportion to the question and the buffer,
 * however many items are asked for. Then *needed is SIZE_MAX, since the length isn't known: a greater buffer may do, or fewer items, from a later
 * one on. */
int32_t zarrs_answer(
    const uint8_t *question, size_t question_len,
    uint8_t *line, size_t line_len,
    size_t *needed);

/* Writes in words why metadata say no grid of an array of this shape, and returns the code that zarrs_prepare_grid returns. *needed gets how many
 * bytes the words have. If the buffer is shorter, nothing is written to it. ZARRS_OK if the metadata say a grid, and *needed is 0 then. */
int32_t zarrs_grid_fault(
    const uint64_t *shape, size_t shape_len,
    const uint8_t *chunk_grid, size_t chunk_grid_len,
    uint8_t *words, size_t words_len,
    size_t *needed);

/* Does the same for metadata that say no encoding. */
int32_t zarrs_encoding_fault(
    const uint8_t *chunk_key_encoding, size_t chunk_key_encoding_len,
    uint8_t *words, size_t words_len,
    size_t *needed);

/* Writes what a code says, in words. For a number that isn't a code, they say that it isn't one. *needed gets how many bytes they have.
 * ZARRS_SHORT_BUFFER if words is shorter: nothing is written to it. */
int32_t zarrs_code_words(
    int32_t code,
    uint8_t *words, size_t words_len,
    size_t *needed);

#ifdef __cplusplus
}
#endif

#endif
