/* heap-test: 200,000 random requests to heap.c against a shadow of what was written. No two blocks overlap, each is
 * aligned to 16 and lies in the memory that was grown, what was written stays, and a growth that is refused changes
 * nothing. And 6,000 changes of a page, of which each gives it another sum. Exit status 1: something of that isn't so.
 * web/check builds it with the sanitizers of cc. */
#include <stdint.h>
#include <stdio.h>
#include <stdlib.h>
#include <string.h>
#include <sys/mman.h>

enum { REQUESTS = 200000, BLOCKS = 2000, CHANGES = 1000, PAGE = 65536, WORDS = PAGE / 8, MOST_PAGES = 120 };   /* 7.5 MiB, so that growth is refused too */

struct tried { uint64_t ok; uint8_t *p; };
struct tried rattle_alloc(size_t n, size_t a);
struct tried rattle_realloc(uint8_t *p, size_t kept, size_t n, size_t a);
void rattle_dealloc(uint8_t *p);
uint64_t page_sum(const uint64_t *at);

/* A block that is in use, and the byte that all of it holds. */
struct block { uint8_t *at; size_t length; uint8_t mark; };

static struct block blocks[BLOCKS];
static uint8_t *base;
static size_t pages, refused;

uint8_t *heap_base(void) { return base; }

size_t heap_grow(size_t n) {
    if (pages + n > MOST_PAGES) return (size_t)-1;
    pages += n;
    return pages - n;
}

static void fail(const char *what) {
    printf("heap-test: %s\n", what);
    exit(1);
}

static uint64_t draw(uint64_t n) {
    static uint64_t seed = 1;
    seed = seed * 6364136223846793005u + 1442695040888963407u;
    return (seed >> 33) % n;
}

/* A length of up to 64 KiB, small ones as often as large ones. */
static size_t any_length(void) {
    uint64_t bits = draw(17);
    return draw((uint64_t)1 << bits) + draw(3);
}

static void check_mark(const uint8_t *at, size_t length, uint8_t mark) {
    for (size_t i = 0; i < length; i++)
        if (at[i] != mark) fail("a byte that was written is another");
}

static void hold(struct block *block, uint8_t *at, size_t length, uint8_t mark) {
    if ((uintptr_t)at % 16 != 0) fail("a block isn't aligned");
    if (at < base || at + length > base + pages * PAGE) fail("a block lies outside the memory");
    *block = (struct block){at, length, mark};
    memset(at, mark, length);
}

static void request(struct block *block) {
    size_t length = any_length();
    struct tried tried = rattle_alloc(length, 16);
    if (tried.ok) hold(block, tried.p, length, (uint8_t)draw(256));
    else if (tried.p) refused++;
    else fail("a refusal has a null pointer");
}

static void resize(struct block *block) {
    size_t length = any_length(), kept = block->length < length ? block->length : length;
    struct tried tried = rattle_realloc(block->at, kept, length, 16);
    if (tried.ok) {
        check_mark(tried.p, kept, block->mark);
        hold(block, tried.p, length, block->mark);
    } else {
        refused++;
        check_mark(block->at, block->length, block->mark);
    }
}

/* Fails where a page of other words has the sum of the page as it was, or the same words don't. */
static void check_sum(const uint64_t *page, uint64_t was, int is_same) {
    if ((page_sum(page) == was) != is_same) fail(is_same ? "a page has another sum than before" : "a page that has changed has the sum that it had");
}

/* In a page of zeros and in one of noise: a bit turns, that word changes places with another, and the top
 * bits of two words turn. */
static void change_pages(uint64_t *page, int is_noise) {
    for (int i = 0; i < WORDS; i++) page[i] = is_noise ? draw(1u << 31) << 33 ^ draw(1u << 31) : 0;
    uint64_t was = page_sum(page);
    for (int i = 0; i < CHANGES; i++) {
        uint64_t at = draw(WORDS), to = (at + 1 + draw(WORDS - 1)) % WORDS, bit = (uint64_t)1 << draw(64), top = (uint64_t)1 << 63;
        page[at] ^= bit;
        check_sum(page, was, 0);
        uint64_t one = page[at], other = page[to];
        page[at] = other;
        page[to] = one;
        if (one != other) check_sum(page, was, 0);
        page[at] = one ^ bit;
        page[to] = other;
        check_sum(page, was, 1);
        page[at] ^= top;
        page[to] ^= top;
        check_sum(page, was, 0);
        page[at] ^= top;
        page[to] ^= top;
        check_sum(page, was, 1);
    }
}

int main(void) {
    static uint64_t page[WORDS];
    base = mmap(0, (size_t)MOST_PAGES * PAGE, PROT_READ | PROT_WRITE, MAP_PRIVATE | MAP_ANONYMOUS | MAP_NORESERVE, -1, 0);
    if (base == MAP_FAILED) fail("no memory");
    for (long i = 0; i < REQUESTS; i++) {
        struct block *block = &blocks[draw(BLOCKS)];
        if (!block->at) {
            request(block);
            continue;
        }
        check_mark(block->at, block->length, block->mark);
        if (draw(3)) {
            rattle_dealloc(block->at);
            block->at = NULL;
        } else {
            resize(block);
        }
    }
    for (int i = 0; i < BLOCKS; i++)
        if (blocks[i].at) check_mark(blocks[i].at, blocks[i].length, blocks[i].mark);
    if (refused == 0) fail("no growth was refused");
    change_pages(page, 0);
    change_pages(page, 1);
    printf("heap-test: %d requests, of which %zu were refused; %d changes of a page were seen\n", REQUESTS, refused, 6 * CHANGES);
    return 0;
}
