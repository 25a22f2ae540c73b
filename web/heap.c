/* The heap of the WebAssembly module, in place of malloc. Blocks have sizes that are powers of two, from 32 bytes on, and each
   size has a list of the blocks that were given back. The module itself grows the memory; if the browser doesn't give it, the answer is
   that memory ran out. */
typedef unsigned long u64;

/* What the toolchain's code expects of its three calls: whether there is a block, and the block. */
typedef struct {
    u64 is_there;
    void *start;
} allocation;

/* What is before each block. A block that was given back is in the list of its class. */
typedef struct block {
    u64 class;
    struct block *next;
} block;

enum { PAGE = 65536, HEAD = sizeof(block), LEAST = 5, CLASSES = 40 };

static const u64 greatest = 1ul << 30;

extern unsigned char __heap_base;

static block *given_back[CLASSES];
static u64 end;

/* The class of a block of this size: the logarithm of its bytes and its head. */
static u64 class_of(u64 size) {
    u64 class = LEAST;
    while ((1ul << class) < size + HEAD) {
        class += 1;
    }
    return class;
}

static unsigned char *behind_head(block *it) {
    return (unsigned char *)it + HEAD;
}

static block *head_of(void *start) {
    return (block *)((unsigned char *)start - HEAD);
}

/* Whether the memory goes up to this address, once it has grown. */
static int reaches(u64 place) {
    u64 have = __builtin_wasm_memory_size(0) * PAGE;
    if (place <= have) {
        return 1;
    }
    return __builtin_wasm_memory_grow(0, (place - have + PAGE - 1) / PAGE) != (u64)-1;
}

static void *take(u64 size) {
    if (size > greatest) {
        return 0;
    }
    u64 class = class_of(size);
    block *found = given_back[class];
    if (found) {
        given_back[class] = found->next;
        return behind_head(found);
    }
    if (!end) {
        end = ((u64)&__heap_base + 15) & ~15ul;
    }
    if (!reaches(end + (1ul << class))) {
        return 0;
    }
    found = (block *)end;
    end += 1ul << class;
    found->class = class;
    return behind_head(found);
}

static void give_back(void *start) {
    block *it = head_of(start);
    it->next = given_back[it->class];
    given_back[it->class] = it;
}

static const unsigned char nothing[16] __attribute__((aligned(16)));

/* As the toolchain's library for C: where no bytes are asked for, a block of so many as the alignment is given. */
allocation rattle_alloc(u64 size, u64 alignment) {
    void *start = take(size ? size : alignment);
    return (allocation){start != 0, start ? start : (void *)nothing};
}

allocation rattle_realloc(void *start, u64 kept, u64 size, u64 alignment) {
    u64 wanted = size ? size : alignment;
    if (wanted + HEAD <= 1ul << head_of(start)->class) {
        return (allocation){1, start};
    }
    void *moved = take(wanted);
    if (!moved) {
        return (allocation){0, (void *)nothing};
    }
    __builtin_memcpy(moved, start, kept);
    give_back(start);
    return (allocation){1, moved};
}

void rattle_dealloc(void *start) {
    give_back(start);
}

/* Room for the page: where it writes a text, and where an answer is written for it. 0 if there is none. */
void *timefd_room(u64 size) {
    return take(size ? size : 1);
}

void timefd_give_back(void *start) {
    give_back(start);
}
