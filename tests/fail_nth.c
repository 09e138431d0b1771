/* Fails one call of malloc or realloc, and only that: the one whose number, counted from 1, is in FAIL_NTH. Then
 * it writes a byte to the file descriptor in FAIL_TOLD. It is preloaded before a built program, or, with WRAPPED,
 * linked into one by -Wl,--wrap=malloc,--wrap=realloc. */
#include <stdlib.h>
#include <unistd.h>

#ifdef WRAPPED
#define OURS(name) __wrap_##name
#define REAL(name) __real_##name
#else
#define OURS(name) name
#define REAL(name) __libc_##name
#endif

void *REAL(malloc)(size_t size);
void *REAL(realloc)(void *block, size_t size);

long fail_nth; /* how many calls there are up to the one that fails; 0 if none does any more */
static int told = -1;

static __attribute__((constructor)) void begin(void)
{
    const char *nth = getenv("FAIL_NTH"), *file = getenv("FAIL_TOLD");
    told = file ? atoi(file) : -1;
    fail_nth = nth ? atol(nth) : 0;
}

static int fails(void)
{
    if (fail_nth == 0 || --fail_nth > 0)
        return 0;
    return told < 0 || write(told, "x", 1) == 1;
}

void *OURS(malloc)(size_t size)
{
    return fails() ? NULL : REAL(malloc)(size);
}

void *OURS(realloc)(void *block, size_t size)
{
    return fails() ? NULL : REAL(realloc)(block, size);
}
