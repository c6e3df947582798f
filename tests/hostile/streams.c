// Streams for tests, loaded before the C library's (LD_PRELOAD). Standard input and output answer little at a call,
// or fail:
// READ_STEP=n, WRITE_STEP=n     at most n bytes a call; WRITE_STEP=0 takes nothing
// READ_FAILS=k, WRITE_FAILS=k   the call of this number, from 0, fails
// ERROR=e                       with this error of the system
// SPACES=n                      standard input has n spaces, and never ends if n is negative
// CALLS=1                       at the end, the calls are counted on standard error, as `reads=2 writes=1`
#include <errno.h>
#include <stdio.h>
#include <stdlib.h>
#include <string.h>
#include <sys/syscall.h>
#include <unistd.h>

static long reads = 0;
static long writes = 0;
static long spaces = 0;

static long number(const char *name, long otherwise) {
    const char *text = getenv(name);
    return text ? atol(text) : otherwise;
}

static size_t at_most(const char *name, size_t count) {
    long step = number(name, -1);
    return step >= 0 && (size_t)step < count ? (size_t)step : count;
}

static ssize_t fail(void) {
    errno = (int)number("ERROR", EIO);
    return -1;
}

static ssize_t give_spaces(long all, void *to, size_t count) {
    if (all >= 0 && count > (size_t)(all - spaces)) count = (size_t)(all - spaces);
    memset(to, ' ', count);
    spaces += (long)count;
    return (ssize_t)count;
}

ssize_t read(int file, void *to, size_t count) {
    if (file != 0) return syscall(SYS_read, file, to, count);
    if (reads++ == number("READ_FAILS", -1)) return fail();
    count = at_most("READ_STEP", count);
    if (getenv("SPACES")) return give_spaces(number("SPACES", 0), to, count);
    return syscall(SYS_read, file, to, count);
}

ssize_t write(int file, const void *from, size_t count) {
    if (file != 1) return syscall(SYS_write, file, from, count);
    if (writes++ == number("WRITE_FAILS", -1)) return fail();
    count = at_most("WRITE_STEP", count);
    return count ? syscall(SYS_write, file, from, count) : 0;
}

__attribute__((destructor)) static void write_calls(void) {
    if (getenv("CALLS")) dprintf(2, "reads=%ld writes=%ld\n", reads, writes);
}
