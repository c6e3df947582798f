// A heap for tests, loaded before the C library's (LD_PRELOAD). Growths are numbered from 1, over the whole process:
// REFUSE_AT=n refuses the n-th, REFUSE_AT=n,m two of them. With REFUSE_COUNT set, the number of all growths is written
// to standard error at the end, as `all growths=9`. A request of 2^62 bytes is refused and begins a count of growths;
// one of 2^62 + 1 bytes is refused too, and writes that count, as `growths=3`.
#include <errno.h>
#include <stddef.h>
#include <stdio.h>
#include <stdlib.h>

extern void *__libc_malloc(size_t);
extern void *__libc_calloc(size_t, size_t);
extern void *__libc_realloc(void *, size_t);
extern void *__libc_memalign(size_t, size_t);

static const size_t begin_mark = (size_t)1 << 62;
static const size_t end_mark = ((size_t)1 << 62) + 1;
static long all_growths = 0;
static long growths = -1;
static long first_refused = -1;
static long second_refused = 0;

static void read_numbers(void) {
    const char *text = getenv("REFUSE_AT");
    char *rest = NULL;
    first_refused = text ? strtol(text, &rest, 10) : 0;
    second_refused = rest && *rest == ',' ? strtol(rest + 1, NULL, 10) : 0;
}

static int is_mark(size_t size) {
    if (size == begin_mark) {
        growths = 0;
        return 1;
    }
    if (size == end_mark) {
        dprintf(2, "growths=%ld\n", growths);
        growths = -1;
        return 1;
    }
    return 0;
}

static int is_refused(size_t size) {
    if (first_refused < 0) read_numbers();
    if (is_mark(size)) return 1;
    if (growths >= 0) growths++;
    all_growths++;
    return all_growths == first_refused || all_growths == second_refused;
}

__attribute__((destructor)) static void write_count(void) {
    if (getenv("REFUSE_COUNT")) dprintf(2, "all growths=%ld\n", all_growths);
}

static void *none(void) {
    errno = ENOMEM;
    return NULL;
}

void *malloc(size_t size) { return is_refused(size) ? none() : __libc_malloc(size); }

void *calloc(size_t count, size_t size) { return is_refused(size) ? none() : __libc_calloc(count, size); }

void *realloc(void *block, size_t size) { return is_refused(size) ? none() : __libc_realloc(block, size); }

void *aligned_alloc(size_t align, size_t size) { return is_refused(size) ? none() : __libc_memalign(align, size); }

int posix_memalign(void **block, size_t align, size_t size) {
    if (is_refused(size)) return ENOMEM;
    *block = __libc_memalign(align, size);
    return *block ? 0 : ENOMEM;
}
