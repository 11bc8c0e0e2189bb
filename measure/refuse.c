/* An allocator that refuses one allocation: the one that FAIL_AT counts, from 1. At the end it writes into COUNT_FILE how many there were.
   It is loaded before a program by LD_PRELOAD; refuse_each.py builds and uses it. calloc isn't refused: what the kit
   builds doesn't call it. */
#define _GNU_SOURCE
#include <dlfcn.h>
#include <errno.h>
#include <stdio.h>
#include <stdlib.h>

static long count, fail_at = -1;
static void *(*real_malloc)(size_t), *(*real_realloc)(void *, size_t), *(*real_aligned_alloc)(size_t, size_t);
static int (*real_posix_memalign)(void **, size_t, size_t);

__attribute__((constructor)) static void begin(void) {
    const char *number = getenv("FAIL_AT");
    if (number) fail_at = atol(number);
    count = 0;
}

__attribute__((destructor)) static void end(void) {
    const char *path = getenv("COUNT_FILE");
    long counted = count;
    FILE *file = path ? fopen(path, "w") : NULL;
    if (file) { fprintf(file, "%ld\n", counted); fclose(file); }
}

#define REAL(name) if (!real_##name) real_##name = dlsym(RTLD_NEXT, #name)
#define REFUSED (++count == fail_at)

void *malloc(size_t size) { REAL(malloc); if (REFUSED) { errno = ENOMEM; return NULL; } return real_malloc(size); }
void *realloc(void *block, size_t size) { REAL(realloc); if (REFUSED) { errno = ENOMEM; return NULL; } return real_realloc(block, size); }
void *aligned_alloc(size_t align, size_t size) { REAL(aligned_alloc); if (REFUSED) { errno = ENOMEM; return NULL; } return real_aligned_alloc(align, size); }
int posix_memalign(void **block, size_t align, size_t size) { REAL(posix_memalign); return REFUSED ? ENOMEM : real_posix_memalign(block, align, size); }
