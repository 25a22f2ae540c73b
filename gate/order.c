/* Loaded before the C library (LD_PRELOAD): writes to the file that SYNC_ORDER names, a line for each, when a file that was
   opened to be written is written, when it is brought to the disk, and when a file gets another name. `gate/lint-long` builds it. */

#define _GNU_SOURCE

#include <dlfcn.h>
#include <fcntl.h>
#include <stdio.h>
#include <stdlib.h>
#include <sys/types.h>
#include <unistd.h>

typedef ssize_t writer(int file, const void *bytes, size_t len);
typedef int syncer(int file);
typedef int renamer(const char *old, const char *new);

/* Whether it is a file that this process may write, and none of the first three. */
static int is_new(int file) {
    return file > 2 && (fcntl(file, F_GETFL) & O_ACCMODE) != O_RDONLY;
}

static void *next(const char *name) {
    void *found = dlsym(RTLD_NEXT, name);
    if (found == NULL) {
        abort();
    }
    return found;
}

static void note(const char *what) {
    FILE *order = fopen(getenv("SYNC_ORDER"), "a");
    if (order == NULL) {
        abort();
    }
    fprintf(order, "%s\n", what);
    fclose(order);
}

ssize_t write(int file, const void *bytes, size_t len) {
    if (is_new(file)) {
        note("write");
    }
    return ((writer *)next("write"))(file, bytes, len);
}

int fsync(int file) {
    if (is_new(file)) {
        note("fsync");
    }
    return ((syncer *)next("fsync"))(file);
}

int rename(const char *old, const char *new) {
    note("rename");
    return ((renamer *)next("rename"))(old, new);
}
