/* Prints the chunk key of two elements, and their place in the chunk. The array has 5 x 7 x 52 elements, in chunks of 1 x 2 x 3. */
#include "zarrs_chunks.h"

#include <inttypes.h>
#include <stdio.h>
#include <string.h>

#define GRID "{\"name\":\"regular\",\"configuration\":{\"chunk_shape\":[1,2,3]}}"
#define BYTES(text) (const uint8_t *)(text), strlen(text)

/* Whether a call has failed. Then it prints what its code says. */
static int failed(int32_t code) {
    uint8_t words[128];
    size_t length;
    if (code != ZARRS_OK && zarrs_code_words(code, words, sizeof words, &length) == ZARRS_OK) {
        fprintf(stderr, "%.*s\n", (int)length, (const char *)words);
    }
    return code != ZARRS_OK;
}

int main(void) {
    const uint64_t shape[3] = {5, 7, 52}, indices[2 * 3] = {3, 5, 50, 0, 0, 0};
    uint64_t grid[2 + 7 * 3], encoding[3], chunks[2 * 3], places[2 * 3], offsets[2 + 1];
    uint8_t found[2], keys[64];
    size_t grid_len, encoding_len, keys_len;

    if (failed(zarrs_prepare_grid(shape, 3, BYTES(GRID), grid, 23, &grid_len))
        || failed(zarrs_prepare_encoding(BYTES("\"default\""), encoding, 3, &encoding_len))
        || failed(zarrs_prepared_homes_of(grid, grid_len, indices, 6, chunks, 6, places, 6, found, 2))
        || failed(zarrs_prepared_keys_of(encoding, encoding_len, 3, chunks, 6, keys, 64, offsets, 3, &keys_len))) {
        return 1;
    }
    for (size_t k = 0; k < 2; k++) {
        const uint64_t *place = places + 3 * k;
        printf("%.*s", (int)(offsets[k + 1] - offsets[k]), (const char *)keys + offsets[k]);
        printf(" %" PRIu64 " %" PRIu64 " %" PRIu64 "\n", place[0], place[1], place[2]);
    }
    return 0;
}
