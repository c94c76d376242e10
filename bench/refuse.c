/* A library to load before a program: it refuses the allocations that the environment names.
 *
 * REFUSE=N refuses the Nth allocation after the start, REFUSE_ALL=N the Nth and each later one. COUNT names a file that gets the number
 * of allocations at the end. Allocations before main, and those of the C library for itself, are not counted.
 */
#define _GNU_SOURCE
#include <dlfcn.h>
#include <errno.h>
#include <fcntl.h>
#include <stdio.h>
#include <stdlib.h>
#include <string.h>
#include <unistd.h>

static unsigned long done, one, all;
static int counts;

void *__libc_malloc(size_t);
void *__libc_calloc(size_t, size_t);
void *__libc_realloc(void *, size_t);
void *__libc_memalign(size_t, size_t);

static unsigned long number(const char *name) {
    const char *text = getenv(name);
    return text == NULL ? 0 : strtoul(text, NULL, 10);
}

__attribute__((constructor)) static void begin(void) {
    one = number("REFUSE");
    all = number("REFUSE_ALL");
    counts = 1;
}

__attribute__((destructor)) static void end(void) {
    const char *path = getenv("COUNT");
    char line[32];
    counts = 0;
    if (path == NULL) return;
    int file = open(path, O_WRONLY | O_CREAT | O_TRUNC, 0644);
    int length = snprintf(line, sizeof line, "%lu\n", done);
    if (file < 0 || write(file, line, length) != length) abort();
    close(file);
}

/* Whether the allocation that is asked for now is refused. */
static int is_refused(void) {
    if (!counts) return 0;
    done += 1;
    if (done != one && (all == 0 || done < all)) return 0;
    errno = ENOMEM;
    return 1;
}

void *malloc(size_t size) { return is_refused() ? NULL : __libc_malloc(size); }

void *calloc(size_t count, size_t size) { return is_refused() ? NULL : __libc_calloc(count, size); }

void *realloc(void *old, size_t size) { return is_refused() ? NULL : __libc_realloc(old, size); }

void *memalign(size_t alignment, size_t size) { return is_refused() ? NULL : __libc_memalign(alignment, size); }

void *aligned_alloc(size_t alignment, size_t size) { return memalign(alignment, size); }

int posix_memalign(void **found, size_t alignment, size_t size) {
    void *new = memalign(alignment, size);
    if (new == NULL) return ENOMEM;
    *found = new;
    return 0;
}
