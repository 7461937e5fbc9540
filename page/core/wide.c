// What compiled code calls by name for numbers of 128 bits, since no library of a compiler is linked. A product or a shift here may not
// be one of 128 bits itself: the compiler would call the same function again.
typedef unsigned long long u64;
typedef long long i64;
typedef unsigned __int128 u128;
typedef __int128 i128;
typedef union { u128 whole; i128 with_sign; struct { u64 low, high; }; } Halves;

static u128 whole(u64 low, u64 high) {
    Halves it;
    it.low = low;
    it.high = high;
    return it.whole;
}

// The low 128 bits of the product, for either sign: both words in parts of 32 bits, whose products and carries fit 64.
u128 __multi3(u128 x, u128 y) {
    Halves a = {x}, b = {y};
    u64 a0 = a.low & 0xffffffff, a1 = a.low >> 32, b0 = b.low & 0xffffffff, b1 = b.low >> 32;
    u64 low = a0 * b0;
    u64 middle = a1 * b0 + (low >> 32);
    u64 other = a0 * b1 + (middle & 0xffffffff);
    u64 high = a1 * b1 + (middle >> 32) + (other >> 32) + a.low * b.high + a.high * b.low;
    return whole(other << 32 | (low & 0xffffffff), high);
}

// Shifts by 0 to 127. One by 64 - n that is defined at n = 0 is one by 1, and then by 63 - n.
u128 __ashlti3(u128 x, int n) {
    Halves a = {x};
    int by = n & 63;
    if (n & 64) return whole(0, a.low << by);
    return whole(a.low << by, a.high << by | a.low >> 1 >> (63 - by));
}

u128 __lshrti3(u128 x, int n) {
    Halves a = {x};
    int by = n & 63;
    if (n & 64) return whole(a.high >> by, 0);
    return whole(a.low >> by | a.high << 1 << (63 - by), a.high >> by);
}

i128 __ashrti3(i128 x, int n) {
    Halves a = {(u128)x}, shifted;
    int by = n & 63;
    i64 high = (i64)a.high;
    shifted.whole = n & 64 ? whole((u64)(high >> by), (u64)(high >> 63))
                           : whole(a.low >> by | a.high << 1 << (63 - by), (u64)(high >> by));
    return shifted.with_sign;
}
