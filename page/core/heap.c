// The heap of the module: what the kit's heap is on Linux, over the module's own memory in place of malloc.
//
// Sizes are rounded up to classes, four for each power of two. Each block has a head of 16 bytes with its class. A freed block goes
// to the list of its class, and the next block of that class comes from there; blocks are never joined or split. The block that lies
// last may grow and shrink in place, as a long output does while it is written. Nothing is imported: the memory grows by an
// instruction of WebAssembly, and a heap that can't grow says so by a null pointer.
typedef unsigned long long u64;
typedef unsigned char u8;

#define PAGE 65536ULL
#define HEAD 16ULL
#define CLASSES 144         // the class of the greatest size below is 139
#define MOST (1ULL << 40)   // beyond any memory that a browser gives
#define KEPT_CLASSES 8      // a block that shrinks by fewer classes than these stays as it is

typedef struct Block { u64 class, unused; } Block;
typedef struct Free { struct Free *next; } Free;

extern u8 __heap_base;      // by the linker: where the data ends
static Free *lists[CLASSES];
static u64 top, end;        // where the last block ends, and the memory; both 0 before the first call

#ifdef PLANTBAL_TRIED
// For tests alone: the allocation of a number is refused, or with 0 none; how many were asked for since; and the blocks in use.
static u64 refused, asked, blocks;
void plantbal_refuse(u64 n) {
    refused = n;
    asked = 0;
}
u64 plantbal_asked(void) { return asked; }
u64 plantbal_blocks(void) { return blocks; }
static _Bool is_refused(void) { return ++asked == refused; }
#define COUNT(change) (blocks += (u64)(change))
#else
static _Bool is_refused(void) { return 0; }
#define COUNT(change) ((void)0)
#endif

// The class of a size up to MOST. Rooms are 16, 32, 48, 64, then 80, 96, 112, 128, then 160, 192, 224, 256, and so on.
static u64 class_of(u64 n) {
    if (n <= 64) return n <= 16 ? 0 : (n - 1) / 16;
    u64 power = 63 - __builtin_clzll(n - 1); // 2^power < n <= 2^(power + 1)
    u64 step = 1ULL << (power - 2);
    return 4 + (power - 6) * 4 + (n - (1ULL << power) - 1) / step;
}

static u64 room_of(u64 class) {
    if (class < 4) return (class + 1) * 16;
    u64 power = (class - 4) / 4 + 6, quarters = (class - 4) % 4 + 1;
    return (1ULL << power) + quarters * (1ULL << (power - 2));
}

// Asks for pages. A failure is -1, of which a module that was lowered to 32-bit memory keeps 32 bits.
static _Bool grow(u64 pages) {
    return (unsigned)__builtin_wasm_memory_grow(0, pages) != (unsigned)-1;
}

// Makes the memory reach an address: at first by an eighth of what there is, so that growing is rare, and else by what is needed.
static _Bool reach(u64 to) {
    if (to <= end) return 1;
    u64 pages = (to - end + PAGE - 1) / PAGE, more = end / PAGE / 8;
    if (more > pages && grow(more)) {
        end += more * PAGE;
        return 1;
    }
    if (!grow(pages)) return 0;
    end += pages * PAGE;
    return 1;
}

static _Bool is_last(void *p, u64 class) { return (u64)p + room_of(class) == top; }

// A block of at least n bytes at a multiple of 16, or null.
void *plantbal_alloc(u64 n) {
    if (n > MOST || is_refused()) return 0;
    if (!top) {
        top = ((u64)&__heap_base + HEAD - 1) & ~(HEAD - 1);
        end = __builtin_wasm_memory_size(0) * PAGE;
    }
    u64 class = class_of(n);
    Free *freed = lists[class];
    if (freed) {
        lists[class] = freed->next;
        COUNT(1);
        return freed;
    }
    u64 to = top + HEAD + room_of(class);
    if (!reach(to)) return 0;
    Block *block = (Block *)top;
    block->class = class;
    top = to;
    COUNT(1);
    return block + 1;
}

void plantbal_dealloc(void *p) {
    if (!p) return;
    Block *block = (Block *)p - 1;
    u64 class = block->class;
    COUNT(-1);
    if (is_last(p, class)) {
        top = (u64)block;
        return;
    }
    ((Free *)p)->next = lists[class];
    lists[class] = p;
}

// A block of at least n bytes with what stands in p, which is freed; or null, and p stays.
static void *resized(void *p, u64 n) {
    if (n > MOST) return 0;
    Block *block = (Block *)p - 1;
    u64 class = block->class, wanted = class_of(n);
    if (wanted <= class && class < wanted + KEPT_CLASSES) return p;
    if (is_last(p, class)) {
        u64 to = (u64)p + room_of(wanted);
        if (is_refused() || !reach(to)) return 0;
        block->class = wanted;
        top = to;
        return p;
    }
    void *q = plantbal_alloc(n);
    if (!q) return 0;
    u64 room = room_of(class);
    __builtin_memcpy(q, p, room < n ? room : n);
    plantbal_dealloc(p);
    return q;
}

#ifdef PLANTBAL_TRIED
void *plantbal_resize(void *p, u64 n) { return resized(p, n); }
#endif

// The three functions that the proved code calls: a pointer that may be used, and whether there was memory. Alignments are at most 16.
typedef struct { u64 ok; void *p; } Tried;
static u8 nothing[16] __attribute__((aligned(16)));

static Tried tried(void *p) { return (Tried){p != 0, p ? p : nothing}; }
Tried rattle_alloc(u64 n, u64 align) { return tried(plantbal_alloc(n ? n : align)); }
Tried rattle_realloc(void *p, u64 kept, u64 n, u64 align) {
    (void)kept;
    return tried(resized(p, n ? n : align));
}
void rattle_dealloc(void *p) { plantbal_dealloc(p); }
