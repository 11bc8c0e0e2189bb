/* Times one list a call from C: the chunk of an element, by the numbers of a prepared grid.
 *
 *     cc -O2 -Ibindings measure/one_list.c -Lbindings/out/llvm -lzarrs_chunks -Wl,-rpath,$PWD/bindings/out/llvm -o one_list && ./one_list
 *
 * The array has three dimensions, each cut into edges of 100, or into as many listed edges from 1 to 99 as are named. It prints nanoseconds a call,
 * the least of nine rounds.
 */
#include <stdio.h>
#include <stdlib.h>
#include <string.h>
#include <time.h>

#include "zarrs_chunks.h"

enum { DIMENSIONS = 3, ROUNDS = 9 };

static uint64_t shape[DIMENSIONS], indices[DIMENSIONS], chunks[DIMENSIONS], *numbers;
static uint8_t found;
static char *text;
static size_t count;

/* Another index each time, within the array. */
static void next(uint64_t *state) {
    for (int k = 0; k < DIMENSIONS; k++) {
        *state = *state * 6364136223846793005u + 1442695040888963407u;
        indices[k] = (*state >> 33) % shape[k];
    }
}

static double nanoseconds(size_t calls) {
    double least = 1e18;
    for (int round = 0; round < ROUNDS; round++) {
        uint64_t state = 1;
        struct timespec begin, end;
        clock_gettime(CLOCK_MONOTONIC, &begin);
        for (size_t k = 0; k < calls; k++) {
            next(&state);
            int32_t code = zarrs_prepared_chunk_indices_of(numbers, count, indices, DIMENSIONS, chunks, DIMENSIONS, &found, 1);
            if (code != ZARRS_OK || found != 1) exit(1);
        }
        clock_gettime(CLOCK_MONOTONIC, &end);
        double passed = (end.tv_sec - begin.tv_sec) * 1e9 + (end.tv_nsec - begin.tv_nsec);
        if (passed / calls < least) least = passed / calls;
    }
    return least;
}

/* The metadata of so many listed edges along each dimension, and of chunks of 100 where there are none. */
static void make(size_t edges) {
    size_t room = 100 + DIMENSIONS * (3 * edges + 2);
    text = realloc(text, room);
    char *at = text;
    if (edges == 0) {
        at += sprintf(at, "{\"name\":\"regular\",\"configuration\":{\"chunk_shape\":[100,100,100]}}");
        for (int k = 0; k < DIMENSIONS; k++) shape[k] = 1000000;
    } else {
        at += sprintf(at, "{\"name\":\"rectilinear\",\"configuration\":{\"kind\":\"inline\",\"chunk_shapes\":[");
        for (int k = 0; k < DIMENSIONS; k++) {
            shape[k] = 0;
            for (size_t n = 0; n < edges; n++) {
                unsigned edge = 1 + (n * 37 + k) % 99;
                at += sprintf(at, "%s%u", n == 0 ? (k == 0 ? "[" : ",[") : ",", edge);
                shape[k] += edge;
            }
            at += sprintf(at, "]");
        }
        at += sprintf(at, "]}}");
    }
    size_t text_length = at - text;
    zarrs_prepare_grid(shape, DIMENSIONS, (uint8_t *)text, text_length, NULL, 0, &count);
    numbers = realloc(numbers, count * sizeof *numbers);
    if (zarrs_prepare_grid(shape, DIMENSIONS, (uint8_t *)text, text_length, numbers, count, &count) != ZARRS_OK) exit(1);
}

int main(void) {
    static const size_t edges[] = {0, 20, 200, 2000, 20000};
    printf("%8s %12s\n", "edges", "nanoseconds");
    for (size_t k = 0; k < sizeof edges / sizeof *edges; k++) {
        make(edges[k]);
        printf("%8zu %12.0f\n", edges[k], nanoseconds(200000));
    }
    free(text);
    free(numbers);
    return 0;
}
