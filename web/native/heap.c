/* The heap of the module p11.wasm: rattle_alloc, rattle_realloc and rattle_dealloc, for which the library asks, over
 * the module's own memory, which grows; and three exports for the page: two by which it gets room for what it hands in, and
 * a sum by which it finds the parts of the memory that have changed.
 *
 * It stands in the place of the toolchain's liblibc_c.a and of malloc, which WebAssembly doesn't have. It is C, and no
 * proof covers it. Blocks have one of four sizes between two powers of 2, and a freed block waits for a request of its
 * own size; none are joined or given back, so a request takes a few dozen instructions at most.
 *
 * Built natively with -DHEAP_TEST it is tested by heap-test.c. */
typedef unsigned char u8;
typedef unsigned long long u64;
typedef __SIZE_TYPE__ size;

/* Two words: the library was lowered for x86-64, where the Tried of libc's heap.rt comes back in two registers. */
struct tried { u64 ok; u8 *p; };

/* In front of each block, so that a block begins at a multiple of 16. */
struct head { u64 sort, room; struct head *next; u64 unused; };
enum { HEAD = 32, SORTS = 4 * 40, PAGE = 65536 };

static struct head *freed[SORTS];
static u8 *next_byte, *end_byte;
static u8 nothing;

#ifdef HEAP_TEST
u8 *heap_base(void);
size heap_grow(size pages);              /* -1: refused */
#else
extern u8 __heap_base;
static u8 *heap_base(void) { return &__heap_base; }
static size heap_grow(size pages) { return (size)__builtin_wasm_memory_grow(0, pages); }
static size heap_end(void) { return (size)__builtin_wasm_memory_size(0) * PAGE; }
#endif

/* The bytes of all blocks of a sort, with the head: 64, 80, 96, 112, 128, 160 and so on. */
static u64 bytes_of(u64 sort) { return (4 + sort % 4) << (sort / 4 + 4); }

/* The first sort whose blocks have room for so many bytes behind the head. */
static u64 sort_of(u64 n) {
    u64 all = n + HEAD;
    if (all <= 64) return 0;
    u64 shift = 61 - (u64)__builtin_clzll(all - 1);   /* 4 << shift <= all - 1 < 8 << shift */
    return 4 * (shift - 4) + ((all - 1) >> shift) - 3;
}

static u8 *block(u64 n) {
    if (n > (u64)1 << 36) return 0;
    u64 sort = sort_of(n), all = bytes_of(sort);
    struct head *at = freed[sort];
    if (at) {
        freed[sort] = at->next;
        return (u8 *)at + HEAD;
    }
    if (!next_byte) {
        next_byte = (u8 *)(((size)heap_base() + 15) & ~(size)15);
#ifdef HEAP_TEST
        end_byte = next_byte;
#else
        end_byte = (u8 *)heap_end();
#endif
    }
    u64 left = (u64)(end_byte - next_byte);
    if (left < all) {
        u64 pages = (all - left + PAGE - 1) / PAGE;
        if (heap_grow((size)pages) == (size)-1) return 0;
        end_byte += pages * PAGE;
    }
    at = (struct head *)next_byte;
    next_byte += all;
    at->sort = sort;
    at->room = all - HEAD;
    return (u8 *)at + HEAD;
}

static struct head *head_of(u8 *p) { return (struct head *)(p - HEAD); }

static void give_back(u8 *p) {
    struct head *at = head_of(p);
    at->next = freed[at->sort];
    freed[at->sort] = at;
}

static struct tried tried(u8 *p) { return p ? (struct tried){1, p} : (struct tried){0, &nothing}; }

/* a is 16 at most: each block is aligned to that. */
struct tried rattle_alloc(size n, size a) {
    (void)a;
    return tried(block(n));
}

/* The first kept bytes stay; where there is no room for n the block stays as it was. */
struct tried rattle_realloc(u8 *p, size kept, size n, size a) {
    (void)a;
    if (n <= head_of(p)->room) return (struct tried){1, p};
    u8 *to = block(n);
    if (!to) return tried(0);
    __builtin_memcpy(to, p, kept < n ? kept : n);
    give_back(p);
    return tried(to);
}

void rattle_dealloc(u8 *p) { give_back(p); }

#ifndef HEAP_TEST
#define EXPORT(name) __attribute__((export_name(name)))
#else
#define EXPORT(name)
#endif
/* Room for the page: 0 where there is none. */
EXPORT("page_alloc") u8 *page_alloc(size n) { return block(n); }
EXPORT("page_free") void page_free(u8 *p) { give_back(p); }

/* A round of xxHash64, by which each bit of s and of w counts. */
static u64 lane(u64 s, u64 w) {
    s += w * 0xC2B2AE3D27D4EB4Full;
    return (s << 31 | s >> 33) * 0x9E3779B185EBCA87ull;
}

/* A sum of the PAGE bytes at an address: pages of one sum are taken for the same. Four lanes, which don't wait for each other. */
EXPORT("page_sum") u64 page_sum(const u64 *at) {
    u64 a = 1, b = 2, c = 3, d = 4;
    for (const u64 *end = at + PAGE / sizeof *at; at < end; at += 4) {
        a = lane(a, at[0]);
        b = lane(b, at[1]);
        c = lane(c, at[2]);
        d = lane(d, at[3]);
    }
    return lane(lane(lane(a, b), c), d);
}
