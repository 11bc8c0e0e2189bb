/* Answers questions, a line each on standard input, by a line each on standard output, as the program chunkcalls does. Ends with the status 1 where
 * memory runs out, or reading or writing fails. */
#define _POSIX_C_SOURCE 200809L
#include <stdint.h>
#include <stdio.h>
#include <stdlib.h>

#include "zarrs_chunks.h"

/* Writes the line that answers a question, and answers the code of that. */
static int32_t answer(const char *question, size_t length) {
    for (size_t room = 256;;) {
        uint8_t *line = malloc(room);
        if (line == NULL) {
            return ZARRS_OUT_OF_MEMORY;
        }
        size_t needed;
        int32_t code = zarrs_answer((const uint8_t *)question, length, line, room, &needed);
        if (code == ZARRS_OK) {
            fwrite(line, 1, needed, stdout);
        }
        free(line);
        if (code != ZARRS_SHORT_BUFFER) {
            return code;
        }
        /* SIZE_MAX says that the length isn't known. */
        room = needed == SIZE_MAX ? 2 * room : needed;
    }
}

int main(void) {
    char *question = NULL;
    size_t room = 0;
    ssize_t length;
    while ((length = getline(&question, &room, stdin)) >= 0) {
        size_t without_feed = (size_t)length - (length > 0 && question[length - 1] == '\n');
        int32_t code = answer(question, without_feed);
        if (code != ZARRS_OK) {
            fprintf(stderr, "zarrs_answer ended with the code %d\n", (int)code);
            free(question);
            return 1;
        }
        /* Who waits for an answer gets it before asking again. */
        fflush(stdout);
    }
    free(question);
    return ferror(stdin) || ferror(stdout) ? 1 : 0;
}
