/* What the header says of the stack and of floating-point exceptions, tried: every call on a thread whose stack is as small as it says, with the
 * metadata that nest deepest, and under a trap for overflows. Prints a line for each part, and ends with the status 1 where an answer is wrong; where
 * a stack is too small or a trap is met, a signal ends it. */
#define _GNU_SOURCE
#include <fenv.h>
#include <pthread.h>
#include <stdio.h>
#include <string.h>
#include <sys/mman.h>

#include "zarrs_chunks.h"

#define DEEPEST 127
#define GRID "\"name\":\"regular\",\"configuration\":{\"chunk_shape\":[2,3]}"
#define QUESTION "\"shape\":[5,7],\"chunk_grid\":{" GRID "},\"call\":\"dimensionality\""
#define BYTES(text) (const uint8_t *)(text), strlen(text)

/* An object with a member that says nothing and nests so deep, as lists or as objects. */
static void nested(char *text, const char *beginning, int depth, int is_list) {
    text += sprintf(text, "{%s,\"x\":", beginning);
    for (int level = 1; level < depth; level++) {
        text += sprintf(text, is_list ? "[" : "{\"a\":");
    }
    text += sprintf(text, "0");
    for (int level = 1; level < depth; level++) {
        text += sprintf(text, is_list ? "]" : "}");
    }
    sprintf(text, "}");
}

/* Makes every call of a prepared grid and a prepared encoding. Answers how many ended otherwise than they should. */
static int make_prepared_calls(const uint64_t *grid, size_t grid_len, const uint64_t *encoding, size_t encoding_len, int code) {
    const uint64_t index[2] = {4, 6}, box_shape[2] = {1, 1}, key_offsets[2] = {0, 5};
    uint64_t first[2], second[2], offsets[2];
    uint8_t found, text[64];
    size_t needed, wrong;
    int other = 0;

    other += zarrs_prepared_grid_shape(grid, grid_len, first, 2) != code;
    other += zarrs_prepared_chunk_indices_of(grid, grid_len, index, 2, first, 2, &found, 1) != code;
    other += zarrs_prepared_homes_of(grid, grid_len, index, 2, first, 2, second, 2, &found, 1) != code;
    other += zarrs_prepared_chunk_boxes_of(grid, grid_len, box_shape, 2, first, 2, second, 2, &found, 1) != code;
    other += zarrs_prepared_covers_of(grid, grid_len, index, 2, box_shape, 2, first, 2, second, 2, &found, 1, &wrong) != code;
    other += zarrs_prepared_keys_of(encoding, encoding_len, 2, index, 2, text, sizeof text, offsets, 2, &needed) != code;
    other += zarrs_prepared_chunks_of_keys(
        encoding, encoding_len, 2, (const uint8_t *)"c/4/6", 5, key_offsets, 2, first, 2, &found, 1, &wrong) != code;
    return other;
}

/* Makes every call. Answers how many ended otherwise than they should. */
static int make_calls(const char *grid, const char *encoding, const char *question, int code) {
    const uint64_t shape[2] = {5, 7}, index[2] = {4, 6}, box_shape[2] = {1, 1};
    const struct zarrs_stored_array array = {shape, 2, BYTES(grid), BYTES(encoding)};
    const struct zarrs_element_box box = {index, 2, box_shape, 2};
    uint64_t first[2], second[2], third[2], fourth[2], offsets[2];
    uint8_t text[64];
    uint64_t numbers[16] = {0}, key_numbers[16] = {0};
    struct zarrs_part_buffers parts = {first, 2, second, 2, third, 2, fourth, 2, text, sizeof text, offsets, 2, 0, 0, 0, 0};
    size_t needed, count, key_count;
    int other = 0;

    other += zarrs_parts_of(&array, &box, 0, &parts) != code;
    other += zarrs_prepare_grid(shape, 2, BYTES(grid), numbers, 16, &count) != code;
    other += zarrs_prepare_encoding(BYTES(encoding), key_numbers, 16, &key_count) != code;
    if (code == ZARRS_OK) {
        other += make_prepared_calls(numbers, count, key_numbers, key_count, ZARRS_OK);
    }
    other += make_prepared_calls(shape, 2, shape, 2, ZARRS_NOT_PREPARED);
    other += zarrs_grid_fault(shape, 2, BYTES(grid), text, sizeof text, &needed) != code;
    other += zarrs_encoding_fault(BYTES(encoding), text, sizeof text, &needed) != code;
    other += zarrs_answer(BYTES(question), text, sizeof text, &needed) != ZARRS_OK;
    other += zarrs_code_words(code, text, sizeof text, &needed) != ZARRS_OK;
    other += zarrs_abi_version() != ZARRS_ABI_VERSION;
    other += zarrs_version(text, sizeof text, &needed) != ZARRS_OK || needed != sizeof ZARRS_VERSION - 1 || memcmp(text, ZARRS_VERSION, needed) != 0;
    return other;
}

static char grids[3][2048], encodings[3][2048], questions[3][2048];

static void *deep_calls(void *other) {
    int *others = other;

    *others = 0;
    for (int number = 0; number < 3; number++) {
        *others += make_calls(grids[number], encodings[number], questions[number], number == 2 ? ZARRS_NOT_JSON : ZARRS_OK);
    }
    return NULL;
}

static void *plain_calls(void *other) {
    *(int *)other = make_calls("{" GRID "}", "\"default\"", "{" QUESTION "}", ZARRS_OK);
    return NULL;
}

/* Runs it on a thread with so much stack, below which no page may be touched. */
static int on_stack(size_t size, void *(*calls)(void *)) {
    size_t guard = 1 << 20;
    char *room = mmap(NULL, guard + size, PROT_NONE, MAP_PRIVATE | MAP_ANONYMOUS, -1, 0);
    pthread_attr_t attributes;
    pthread_t thread;
    int other = 1;

    if (room == MAP_FAILED || mprotect(room + guard, size, PROT_READ | PROT_WRITE) != 0) {
        return 1;
    }
    pthread_attr_init(&attributes);
    if (pthread_attr_setstack(&attributes, room + guard, size) != 0 || pthread_create(&thread, &attributes, calls, &other) != 0) {
        return 1;
    }
    pthread_join(thread, NULL);
    munmap(room, guard + size);
    return other;
}

/* The calls with numbers that overflow a float, in metadata that are none then. */
static int trapped(void) {
    fenv_t before;
    int other;

    feenableexcept(FE_OVERFLOW | FE_INVALID | FE_DIVBYZERO);
    feholdexcept(&before);
    other = make_calls("{" GRID ",\"x\":1e999}", "{\"name\":\"default\",\"x\":1e999}", "{" QUESTION ",\"x\":1e999}", ZARRS_NOT_JSON);
    fesetenv(&before);
    return other;
}

int main(void) {
    int deep, plain, floats;

    for (int number = 0; number < 3; number++) {
        const int depth = number == 2 ? DEEPEST + 1 : DEEPEST, is_list = number == 0;

        nested(grids[number], GRID, depth, is_list);
        nested(encodings[number], "\"name\":\"default\"", depth, is_list);
        nested(questions[number], QUESTION, depth, is_list);
    }
    deep = on_stack(ZARRS_STACK, deep_calls);
    plain = on_stack(ZARRS_STACK / 4, plain_calls);
    floats = trapped();
    printf("deepest metadata: %d otherwise\nplain metadata: %d otherwise\nunder a trap: %d otherwise\n", deep, plain, floats);
    return deep + plain + floats != 0;
}
