/* malloc, realloc and free of a WebAssembly module without a C library, and what compilers call by name: memcmp, bcmp.
 *
 * The memory after the module's own data is one row of chunks without gaps. In front of each are two words: its size, a
 * multiple of 16 whose low bit says that it is used, and the size of the chunk before it. A chunk that is freed is
 * joined with a free one before and after it, so that no two free chunks touch. Free chunks are in lists by size: each
 * power of two has eight, and two levels of bits say which lists have any, so that each call takes a bounded number of
 * steps but for bytes that are moved or cleared. A request is rounded up to the next list, of which then any chunk
 * fits. If none does, the memory grows by 1 MiB or what is asked for; it never shrinks. After the last chunk is one of
 * size 0 that is used, which a new piece of memory begins at. */
typedef unsigned long size_t;
typedef unsigned char byte;

#ifdef HEAP_TEST
extern byte *heap_base;
size_t heap_pages(void);
size_t heap_grow(size_t pages);
#else
extern byte __heap_base[];
#define heap_base __heap_base
#define heap_pages() __builtin_wasm_memory_size(0)
#define heap_grow(pages) __builtin_wasm_memory_grow(0, pages)
#endif

typedef struct chunk {
    size_t size;   /* of all of it, with its two words, and 1 if it is used */
    size_t before; /* the size of the chunk before it, 0 at the first */
    struct chunk *next, *last; /* the neighbours in its list, if it is free */
} chunk;

enum { HEAD = 16, LEAST = 32, POWERS = 48, PARTS = 8, PAGE = 65536, GROWTH = 16 };
#define MOST ((size_t)1 << 46)
/* What a refused growth answers is -1, of 32 bits in a module that is lowered, and so at least this. */
#define REFUSED ((size_t)1 << 31)

static chunk *lists[POWERS][PARTS];
static byte parts_with_any[POWERS];
static size_t powers_with_any;
static chunk *end; /* the chunk of size 0 after the last one */

static size_t size_of(const chunk *it) { return it->size & ~(size_t)1; }
static int is_used(const chunk *it) { return it->size & 1; }
static chunk *after(chunk *it) { return (chunk *)((byte *)it + size_of(it)); }
static chunk *before(chunk *it) { return (chunk *)((byte *)it - it->before); }
static unsigned power_of(size_t size) { return 63 - __builtin_clzl(size); }
static unsigned part_of(size_t size, unsigned power) { return size >> (power - 3) & 7; }

static void put(chunk *it)
{
    unsigned power = power_of(it->size), part = part_of(it->size, power);
    it->last = 0;
    it->next = lists[power][part];
    if (it->next)
        it->next->last = it;
    lists[power][part] = it;
    parts_with_any[power] |= 1 << part;
    powers_with_any |= (size_t)1 << power;
}

static void take(chunk *it)
{
    unsigned power = power_of(it->size), part = part_of(it->size, power);
    if (it->next)
        it->next->last = it->last;
    if (it->last) {
        it->last->next = it->next;
        return;
    }
    lists[power][part] = it->next;
    if (!it->next && !(parts_with_any[power] &= ~(1 << part)))
        powers_with_any &= ~((size_t)1 << power);
}

/* A chunk that was used or is new becomes free, joined with its neighbours. */
static void give_back(chunk *it)
{
    size_t size = size_of(it);
    chunk *next = (chunk *)((byte *)it + size);
    if (!is_used(next)) {
        take(next);
        size += next->size;
    }
    if (it->before && !is_used(before(it))) {
        it = before(it);
        take(it);
        size += it->size;
    }
    it->size = size;
    after(it)->before = size;
    put(it);
}

/* What a used chunk has beyond so many bytes is given back, if it makes a chunk. */
static void cut(chunk *it, size_t size)
{
    size_t rest = size_of(it) - size;
    chunk *second;
    if (rest < LEAST)
        return;
    it->size = size | 1;
    second = after(it);
    second->size = rest | 1;
    second->before = size;
    after(second)->before = rest;
    give_back(second);
}

/* The size of the chunk for so many bytes. */
static size_t chunk_for(size_t asked)
{
    size_t size = (asked + HEAD + 15) & ~(size_t)15;
    return size < LEAST ? LEAST : size;
}

/* The memory grows, so that there is a free chunk of this size at its end. */
static int grow(size_t size)
{
    size_t pages = (size + 2 * HEAD + PAGE - 1) / PAGE, more = pages < GROWTH ? GROWTH : pages;
    chunk *first = end;
    if (!end) {
        first = (chunk *)(((size_t)heap_base + 15) & ~(size_t)15);
        end = first;
        first->before = 0;
        more = heap_pages() * PAGE - (size_t)first;
        if (more < size + HEAD) {
            if (heap_grow(pages) >= REFUSED) {
                end = 0;
                return 0;
            }
            more += pages * PAGE;
        }
        more &= ~(size_t)15;
        first->size = (more - HEAD) | 1;
    } else {
        if (heap_grow(more) >= REFUSED) {
            if (heap_grow(pages) >= REFUSED)
                return 0;
            more = pages;
        }
        first->size = more * PAGE | 1;
    }
    end = after(first);
    end->size = 1;
    give_back(first);
    return 1;
}

/* A free chunk of the first list whose chunks all have this size; of the list below, its first one alone. */
static chunk *find(size_t size)
{
    size_t wanted = size + ((size_t)1 << (power_of(size) - 3)) - 1, powers;
    unsigned power = power_of(wanted), parts = parts_with_any[power] >> part_of(wanted, power);
    chunk *near = lists[power_of(size)][part_of(size, power_of(size))];
    if (near && near->size >= size)
        return near;
    if (parts)
        return lists[power][part_of(wanted, power) + __builtin_ctz(parts)];
    powers = powers_with_any >> power >> 1;
    if (!powers)
        return 0;
    power += 1 + __builtin_ctzl(powers);
    return lists[power][__builtin_ctz(parts_with_any[power])];
}

void *malloc(size_t asked)
{
    size_t size;
    chunk *found;
    if (asked > MOST)
        return 0;
    size = chunk_for(asked);
    found = find(size);
    if (!found) {
        /* A bit more, so that the new chunk is on a list that is looked at. */
        if (!grow(size + (size >> 3)) && !grow(size))
            return 0;
        found = find(size);
        if (!found)
            return 0;
    }
    take(found);
    found->size |= 1;
    cut(found, size);
    return (byte *)found + HEAD;
}

void free(void *at)
{
    if (at)
        give_back((chunk *)((byte *)at - HEAD));
}

void *realloc(void *at, size_t asked)
{
    chunk *it = (chunk *)((byte *)at - HEAD), *next;
    size_t size, had;
    void *to;
    if (!at)
        return malloc(asked);
    if (asked > MOST)
        return 0;
    size = chunk_for(asked);
    next = after(it);
    had = size_of(it);
    if (size > had && !is_used(next) && had + next->size >= size) {
        take(next);
        it->size = (had + next->size) | 1;
        after(it)->before = size_of(it);
    }
    if (size <= size_of(it)) {
        cut(it, size);
        return at;
    }
    to = malloc(asked);
    if (!to)
        return 0;
    __builtin_memcpy(to, at, had - HEAD);
    free(at);
    return to;
}

int memcmp(const void *a, const void *b, size_t n)
{
    const byte *x = a, *y = b;
    for (; n; n--, x++, y++)
        if (*x != *y)
            return *x < *y ? -1 : 1;
    return 0;
}

int bcmp(const void *a, const void *b, size_t n)
{
    return memcmp(a, b, n);
}
