/* What web/try-narrow makes a module of: each way in which code takes an address. */
typedef unsigned char u8;
typedef unsigned short u16;
typedef unsigned int u32;
typedef unsigned long u64;
typedef int numbers __attribute__((vector_size(16)));

static volatile u8 room[4096] __attribute__((aligned(16)));
static volatile numbers four;
static const char *const names[] = {"zero", "one", "two"};

#define STORED(name, type)                      \
    u64 name(u64 at, u64 value) {               \
        *(volatile type *)&room[at] = (type)value; \
        return (u64)*(volatile type *)&room[at]; \
    }
STORED(byte, u8)
STORED(signed_byte, signed char)
STORED(half, u16)
STORED(word, u32)
STORED(whole, u64)
STORED(single, float)
STORED(twice, double)

/* Far after an address. */
u64 far(u64 at, u64 value) {
    room[at + 4000] = (u8)value;
    return room[at + 4000];
}

u64 vector(u64 which, u64 value) {
    numbers made = {1, 2, 3, 4};
    four = made;
    made = four;
    made[2] = *(volatile int *)&room[which];
    four = made;
    return (u64)four[0] * value + (u64)four[2];
}

u64 copy(u64 size, u64 value) {
    room[100] = (u8)value;
    __builtin_memcpy((void *)&room[200], (const void *)&room[100], size);
    return room[200];
}

u64 fill(u64 size, u64 value) {
    __builtin_memset((void *)&room[300], (int)value, size);
    return (u64)room[300] << 8 | room[300 + size];
}

/* An address in the data. */
u64 letter(u64 which, u64 place) {
    return (u64)(u8)names[which][place];
}

u64 pages(u64 more, u64 unused) {
    u64 before = __builtin_wasm_memory_grow(0, more + unused);
    return before == (u64)-1 ? before : __builtin_wasm_memory_size(0) - before;
}
