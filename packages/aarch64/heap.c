/* The library's calls for memory on aarch64. The toolchain has them in liblibc_c.a only for x86-64. So here are the same three
   functions over malloc, realloc and free. The library's proofs rest on what the toolchain states about them; that these
   do so is tested, and not proved. The callers ask for no alignment above 16, which malloc gives, and for no size above the
   greatest of an object. */
#include <stdbool.h>
#include <stddef.h>
#include <stdlib.h>

typedef struct {
    bool ok;
    void *block;
} tried;

tried rattle_alloc(size_t size, size_t align);
tried rattle_realloc(void *block, size_t kept, size_t size, size_t align);
void rattle_dealloc(void *block);

/* If there is no memory the answer still names a byte, as the caller's type has no null pointer. */
static _Alignas(16) unsigned char no_block[16];

static tried answer(void *block) {
    return (tried){.ok = block != NULL, .block = block != NULL ? block : no_block};
}

/* For the size 0 a block of the alignment's size is taken: malloc may answer null there, which would read as out of memory. */
static size_t asked(size_t size, size_t align) {
    return size != 0 ? size : align;
}

tried rattle_alloc(size_t size, size_t align) {
    return answer(malloc(asked(size, align)));
}

/* realloc keeps more than the bytes that are to be kept. */
tried rattle_realloc(void *block, size_t kept, size_t size, size_t align) {
    (void)kept;
    return answer(realloc(block, asked(size, align)));
}

void rattle_dealloc(void *block) {
    free(block);
}
