// The functions of core/wide.c under other names, against the machine's own numbers of 128 bits: products and shifts, by lot and at edges.
#define __multi3 own_multi3
#define __ashlti3 own_ashlti3
#define __lshrti3 own_lshrti3
#define __ashrti3 own_ashrti3
#include "../core/wide.c"
#include <stdio.h>

static u64 state = 7;
static u64 lot(void) { return state = state * 6364136223846793005ULL + 1442695040888963407ULL, state ^ state >> 29; }

static u128 number(void) {
    static const u64 edges[] = {0, 1, 2, 0x7fffffff, 0x80000000, 0xffffffff, 0x100000000, 0x7fffffffffffffff, 0x8000000000000000, ~0ULL};
    u64 low = lot() % 3 ? lot() : edges[lot() % 10], high = lot() % 3 ? lot() : edges[lot() % 10];
    return whole(low, high);
}

int main(void) {
    for (int i = 0; i < 3000000; i++) {
        u128 x = number(), y = number();
        int n = (int)(lot() % 128);
        if (own_multi3(x, y) != x * y || own_ashlti3(x, n) != x << n || own_lshrti3(x, n) != x >> n || own_ashrti3((i128)x, n) != (i128)x >> n) {
            printf("wide: wrong at %d\n", i);
            return 1;
        }
    }
    return 0;
}
