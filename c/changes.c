/* Makes a warehouse in a file, or loads fact rows into one:
 *
 *   changes FILE create SECTORS CUSTOMER SUPPLIER PART DATE
 *   changes FILE load FIRST ROWS LINEORDER
 *
 * It prints how many records the journal has. Where the variable RECORDS is set, it applies only the first so many, as a
 * crash may leave the file. The status is 1 at a fault. */
#define _POSIX_C_SOURCE 200809L
#define _DEFAULT_SOURCE
#define _FILE_OFFSET_BITS 64
#include "ssbcube.h"
#include <fcntl.h>
#include <stdio.h>
#include <stdlib.h>
#include <string.h>
#include <sys/file.h>
#include <sys/mman.h>
#include <sys/stat.h>

struct bytes {
    uint8_t *at;
    size_t len;
};

static void fail(const char *what) {
    perror(what);
    exit(2);
}

/* The bytes of an open file, which are changed by no other program while it is locked. */
static struct bytes map(int fd, const char *path) {
    struct stat found;
    if (fstat(fd, &found) != 0)
        fail(path);
    struct bytes whole = {(uint8_t *)"", (size_t)found.st_size};
    if (whole.len > 0)
        whole.at = mmap(NULL, whole.len, PROT_READ, MAP_PRIVATE, fd, 0);
    if (whole.at == MAP_FAILED)
        fail(path);
    return whole;
}

static struct bytes read_table(const char *path) {
    int fd = open(path, O_RDONLY);
    if (fd < 0)
        fail(path);
    struct bytes whole = map(fd, path);
    close(fd);
    return whole;
}

static int64_t change(struct bytes image, char **words, struct bytes *tables, struct bytes out, struct bytes message) {
    if (strcmp(words[2], "create") == 0)
        return ssbcube_create(image.at, image.len, tables[0].at, tables[0].len, tables[1].at, tables[1].len,
                              tables[2].at, tables[2].len, tables[3].at, tables[3].len, out.at, out.len, message.at,
                              message.len);
    return ssbcube_load(image.at, image.len, (uint32_t)strtoul(words[3], NULL, 10),
                        (uint32_t)strtoul(words[4], NULL, 10), tables[0].at, tables[0].len, out.at, out.len, message.at,
                        message.len);
}

/* How many records a journal has, and how many bytes the first so many take. */
static size_t cut(struct bytes journal, size_t most, size_t *records) {
    size_t at = 0, first = 0;
    for (*records = 0; at < journal.len; ++*records) {
        if (*records == most)
            first = at;
        at += memcmp(journal.at + at, "\xff\xff\xff\xff", 4) == 0 ? 4 : 516;
    }
    return *records <= most ? journal.len : first;
}

int main(int count, char **words) {
    int creates = count == 8 && strcmp(words[2], "create") == 0;
    if (!creates && (count != 6 || strcmp(words[2], "load") != 0)) {
        fputs("changes FILE (create SECTORS CUSTOMER SUPPLIER PART DATE | load FIRST ROWS LINEORDER)\n", stderr);
        return 2;
    }
    int fd = open(words[1], creates ? O_RDWR | O_CREAT : O_RDWR, 0666);
    if (fd < 0 || flock(fd, LOCK_EX | LOCK_NB) != 0)
        fail(words[1]);
    if (creates && ftruncate(fd, (off_t)strtoul(words[3], NULL, 10) * 512) != 0)
        fail(words[1]);
    struct bytes tables[4], image = map(fd, words[1]), out = {NULL, 0};
    for (int i = 0; i < (creates ? 4 : 1); i++)
        tables[i] = read_table(words[(creates ? 4 : 5) + i]);
    uint8_t line[80];
    struct bytes message = {line, sizeof line};
    int64_t len = change(image, words, tables, (struct bytes){(uint8_t *)"", 0}, message);
    if (len > 0) {
        out = (struct bytes){malloc((size_t)len), (size_t)len};
        if (!out.at)
            fail("journal");
        len = change(image, words, tables, out, message);
    }
    if (len < 0) {
        fprintf(stderr, "%s\n", (char *)line);
        return 1;
    }
    const char *some = getenv("RECORDS");
    size_t records, first = cut(out, some ? strtoul(some, NULL, 10) : SIZE_MAX, &records);
    if (ssbcube_apply(fd, out.at, first) != 0)
        fail(words[1]);
    printf("%zu records\n", records);
    free(out.at);
    return 0;
}
