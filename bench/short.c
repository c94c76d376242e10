/* A library to load before a program: its reads give fewer bytes than there are.
 *
 * PIECE=N gives at most N bytes at each read, CUT=N at most N at the first read of more than none of a file that is opened read-only.
 * What is read at a place of a file (pread) stays whole.
 */
#define _GNU_SOURCE
#include <dlfcn.h>
#include <fcntl.h>
#include <stdlib.h>
#include <unistd.h>

static size_t number(const char *name) {
    const char *text = getenv(name);
    return text == NULL ? 0 : strtoul(text, NULL, 10);
}

ssize_t read(int file, void *to, size_t count) {
    static ssize_t (*whole)(int, void *, size_t);
    static size_t piece, cut;
    if (whole == NULL) {
        whole = (ssize_t(*)(int, void *, size_t))dlsym(RTLD_NEXT, "read");
        piece = number("PIECE");
        cut = number("CUT");
    }
    if (piece != 0 && count > piece) count = piece;
    if (cut != 0) {
        if (count > cut) count = cut;
        cut = 0;
    }
    return whole(file, to, count);
}
