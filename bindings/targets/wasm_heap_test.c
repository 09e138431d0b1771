/* Tries wasm_heap.c, whose names begin with wasm_ here, over a memory of its own: random blocks are got, changed in size
 * and freed; each keeps its bytes, lies at a multiple of 16 and overlaps no other. Once all are free they are one chunk
 * again, and a block of nearly the whole memory is had without growth. At the limit requests are refused, and blocks
 * stay as they are. wasm_heap_test [SEED] [CALLS] */
#include <stdint.h>
#include <stdio.h>
#include <stdlib.h>
#include <string.h>

#define HEAP_TEST
unsigned char *heap_base;
static size_t pages = 1;
enum { LIMIT = 512, BLOCKS = 400 };
size_t heap_pages(void);
size_t heap_grow(size_t more);
#define malloc wasm_malloc
#define free wasm_free
#define realloc wasm_realloc
#define memcmp wasm_memcmp
#define bcmp wasm_bcmp
#define size_t wasm_size_t
#include "wasm_heap.c"
#undef malloc
#undef free
#undef realloc
#undef memcmp
#undef bcmp
#undef size_t

/* Places in the memory are real addresses, so the count of pages begins at address 0. */
size_t heap_pages(void) { return (size_t)heap_base / PAGE + pages; }

size_t heap_grow(size_t more)
{
    if (more > LIMIT - pages)
        return (size_t)-1;
    pages += more;
    return heap_pages() - more;
}

static uint64_t state;

static size_t chance(size_t below)
{
    state = state * 6364136223846793005u + 1442695040888963407u;
    return (size_t)(state >> 33) % below;
}

static void check(int holds, const char *what)
{
    if (!holds) {
        printf("FAILED: %s\n", what);
        exit(1);
    }
}

/* The row of chunks without gaps: sizes agree, and no two free ones touch. Returns how many there are. */
static size_t walk(void)
{
    chunk *it = (chunk *)(((size_t)heap_base + 15) & ~(size_t)15);
    size_t count = 0, size = 0;
    int free_before = 0;
    for (; it != end; it = after(it), count++) {
        check(it->before == size, "a chunk knows the size of the one before it");
        check(!(free_before && !is_used(it)), "two free chunks touch");
        free_before = !is_used(it);
        size = size_of(it);
    }
    check(it->before == size, "the end knows the last chunk");
    return count;
}

static struct { unsigned char *at; size_t len; unsigned char sign; } held[BLOCKS];

static void holds(size_t i)
{
    for (size_t k = 0; k < held[i].len; k++)
        check(held[i].at[k] == (unsigned char)(held[i].sign + k), "a block has its bytes");
}

static size_t some_size(void) { return chance(20) ? chance(3000) : chance(2000000); }

static size_t step(void)
{
    size_t i = chance(BLOCKS), len = some_size(), kept;
    unsigned char *to;
    if (held[i].at && chance(2)) {
        holds(i);
        wasm_free(held[i].at);
        held[i].at = 0;
        return 0;
    }
    to = held[i].at ? wasm_realloc(held[i].at, len) : wasm_malloc(len);
    if (!to) {
        if (held[i].at)
            holds(i);
        return 1;
    }
    check((size_t)to % 16 == 0, "a block lies at a multiple of 16");
    check(to >= heap_base && to + len <= heap_base + pages * PAGE, "a block lies in the memory");
    if (held[i].at) {
        kept = len < held[i].len ? len : held[i].len;
        for (size_t k = 0; k < kept; k++)
            check(to[k] == (unsigned char)(held[i].sign + k), "a block that is changed in size keeps its bytes");
    }
    held[i].at = to;
    held[i].len = len;
    held[i].sign = (unsigned char)chance(256);
    for (size_t k = 0; k < len; k++)
        to[k] = (unsigned char)(held[i].sign + k);
    return 0;
}

int main(int count, char **words)
{
    size_t refused = 0, calls = count > 2 ? strtoul(words[2], 0, 10) : 60000, before;
    void *whole;
    state = count > 1 ? strtoul(words[1], 0, 10) : 1;
    heap_base = aligned_alloc(PAGE, (size_t)LIMIT * PAGE);
    check(heap_base != 0, "there is memory for the test");
    for (size_t round = 0; round < 3; round++) {
        for (size_t call = 0; call < calls / 3; call++) {
            refused += step();
            if (call % 200 == 0)
                walk();
        }
        for (size_t i = 0; i < BLOCKS; i++) {
            if (held[i].at) {
                holds(i);
                wasm_free(held[i].at);
            }
            held[i].at = 0;
        }
        check(walk() == 1, "all blocks are one again");
        before = pages;
        whole = wasm_malloc(pages * PAGE - 4096);
        check(whole != 0 && pages == before, "a block of the whole memory is had again");
        wasm_free(whole);
    }
    check(!wasm_malloc((size_t)1 << 60) && !wasm_malloc((size_t)LIMIT * PAGE), "what can't be had is refused");
    check(refused > 0, "some requests pass the limit");
    check(wasm_memcmp("ab", "ac", 2) < 0 && !wasm_bcmp("ab", "ac", 1), "bytes are compared");
    printf("%zu calls, %zu refused at the limit, %zu pages\n", calls, refused, pages);
    return 0;
}
