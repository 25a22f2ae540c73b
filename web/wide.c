/* Numbers of 128 bits, which the processors of the other builds and their compiler's library have, and WebAssembly hasn't. The
   compiler calls these by their names. */
typedef unsigned long u64;
typedef unsigned __int128 u128;

static u128 joined(u64 high, u64 low) {
    return (u128)high << 64 | low;
}

/* The product of two numbers of 64 bits, of their halves. */
static u128 product(u64 a, u64 b) {
    u64 half = 0xffffffff, low = (a & half) * (b & half);
    u64 first = (a >> 32) * (b & half) + (low >> 32);
    u64 second = (a & half) * (b >> 32) + (first & half);
    return joined((a >> 32) * (b >> 32) + (first >> 32) + (second >> 32), second << 32 | (low & half));
}

u128 __multi3(u128 a, u128 b) {
    u64 a_low = (u64)a, b_low = (u64)b;
    return product(a_low, b_low) + joined(a_low * (u64)(b >> 64) + (u64)(a >> 64) * b_low, 0);
}

/* The quotient, one bit at a time, the highest first: each replaces the bit that it is made from. The divisor isn't 0. */
u128 __udivti3(u128 a, u128 b) {
    u128 rest = 0;
    for (int bits = 128; bits > 0; bits -= 1) {
        u64 is_full = (u64)(rest >> 127);
        rest = rest << 1 | a >> 127;
        a <<= 1;
        if (is_full || rest >= b) {
            rest -= b;
            a |= 1;
        }
    }
    return a;
}

/* What the quotient leaves. */
u128 __umodti3(u128 a, u128 b) {
    return a - __udivti3(a, b) * b;
}
