/* Loaded before the C library (LD_PRELOAD): refuses the one allocation that REFUSED_ALLOCATION numbers, from 1 on, and
   then makes the file that REFUSAL_MARK names. At the end it writes to the file that BLOCKS_HELD names how many blocks were
   not freed. `gate/memory` builds it. */

#include <errno.h>
#include <fcntl.h>
#include <stddef.h>
#include <stdio.h>
#include <stdlib.h>
#include <unistd.h>

void *__libc_malloc(size_t size);
void *__libc_calloc(size_t count, size_t size);
void *__libc_realloc(void *block, size_t size);
void __libc_free(void *block);

/* How many allocations there are up to the refused one, with it. None is refused where it is 0. */
static unsigned long left;

/* How many blocks are not freed. */
static long held;

__attribute__((constructor)) static void read_number(void) {
    const char *number = getenv("REFUSED_ALLOCATION");
    left = number == NULL ? 0 : strtoul(number, NULL, 10);
}

__attribute__((destructor)) static void write_held(void) {
    const char *path = getenv("BLOCKS_HELD");
    int file = path == NULL ? -1 : open(path, O_CREAT | O_WRONLY | O_TRUNC, 0600);
    if (file >= 0) {
        dprintf(file, "%ld\n", held);
        close(file);
    }
}

static int is_refused(void) {
    if (left == 0 || --left > 0) {
        return 0;
    }
    const char *mark = getenv("REFUSAL_MARK");
    if (mark != NULL) {
        close(open(mark, O_CREAT | O_WRONLY, 0600));
    }
    errno = ENOMEM;
    return 1;
}

void *malloc(size_t size) {
    void *block = is_refused() ? NULL : __libc_malloc(size);
    held += block != NULL;
    return block;
}

void *calloc(size_t count, size_t size) {
    void *block = __libc_calloc(count, size);
    held += block != NULL;
    return block;
}

void *realloc(void *block, size_t size) {
    void *moved = is_refused() ? NULL : __libc_realloc(block, size);
    held += block == NULL && moved != NULL;
    return moved;
}

void free(void *block) {
    held -= block != NULL;
    __libc_free(block);
}
