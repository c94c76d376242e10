/* Queries and changes of a warehouse of the Star Schema Benchmark in C.
 *
 * The program reads the whole file of the warehouse, or maps it, and passes a call its bytes and how many there are.
 * A call keeps nothing: it opens no file, writes none, takes no lock, and frees what it allocates before it returns. A
 * change is a journal, which the program applies to the file: see ssbcube_create.
 * The bytes must not change while a call runs: where another program may write the file, hold a lock on it, or pass
 * a copy.
 *
 * An answer of 0 or more is the length of a text or a journal in bytes. Where `out` is shorter than that, nothing is put in it:
 * call again with so much room. An answer below 0 is the number of a fault with a minus, and then nothing is put in
 * `out`.
 *
 * A text is passed as a pointer, which is never null, and a length in bytes, which may be 0. `out` shares no byte
 * with what else is passed. Calls in several threads may share the other bytes. None is made from a signal handler,
 * nor from the forked child of a process with threads.
 *
 * A program is linked with libc_library.a, which crates/c_library builds, and with the toolchain's liblibc_c.a, which
 * calls the program's malloc, realloc and free. */
#ifndef SSBCUBE_H
#define SSBCUBE_H
#include <errno.h>
#include <stddef.h>
#include <stdint.h>
#include <sys/types.h>
#include <unistd.h>
#ifdef __cplusplus
extern "C" {
#endif

/* The faults of a query. */
enum {
    SSBCUBE_MEMORY = -1,
    SSBCUBE_DEVICE = -2,
    SSBCUBE_NOT_FORMATTED = -5,   /* the bytes hold no warehouse */
    SSBCUBE_BAD_LAYOUT = -7,      /* those of a warehouse were damaged */
    SSBCUBE_DEVICE_SIZE = -8,     /* they are no whole number of sectors of 512 bytes, or not as many as it has */
    SSBCUBE_BAD_QUERY = -24,      /* no query is spelled so, or no format has this name */
    SSBCUBE_NO_SUCH_PREFIX = -25, /* there are fewer batches */
    SSBCUBE_OUTPUT = -30          /* there is no memory for the text */
};

/* The further faults of a creation and of a load. */
enum {
    SSBCUBE_FULL = -4,              /* the dimensions, or the next batch, do not fit */
    SSBCUBE_ALREADY_FORMATTED = -6, /* the bytes hold a warehouse already */
    SSBCUBE_FIELD_COUNT = -9,       /* a line has too few or too many fields */
    SSBCUBE_BAD_NUMBER = -10,       /* a field is no number, or one that is out of range */
    SSBCUBE_FIELD_TOO_LONG = -11,
    SSBCUBE_DUPLICATE_KEY = -12,
    SSBCUBE_HIERARCHY_BROKEN = -13, /* a member has two upper members */
    SSBCUBE_RESERVED_MEMBER = -14,  /* a member is the text ALL */
    SSBCUBE_UNKNOWN_CUSTOMER = -15, /* a fact row has a key of no row */
    SSBCUBE_UNKNOWN_SUPPLIER = -16,
    SSBCUBE_UNKNOWN_PART = -17,
    SSBCUBE_UNKNOWN_DATE = -18,
    SSBCUBE_SUM_RANGE = -19, /* a sum of a measure passes its limit */
    SSBCUBE_TOO_MANY_ROWS = -20,
    SSBCUBE_TOO_MANY_BATCHES = -21,
    SSBCUBE_REPEATED = -22, /* the batch of the number has other rows */
    SSBCUBE_GAP = -23,      /* the number leaves out batches that are not there yet */
    SSBCUBE_TOO_MANY_MEMBERS = -27,
    SSBCUBE_WORN = -28 /* the last generation is reached */
};

/* The report of a query of the benchmark by its number, such as 1.1, over the first as_of batches, or over all where
 * as_of is below 0. The format is bars, csv, tsv or json; an average is a fraction, and in json a sum
 * and a count. */
int64_t ssbcube_report(const uint8_t *image, size_t image_len, const uint8_t *number, size_t number_len,
                       int64_t as_of, const uint8_t *format, size_t format_len, uint8_t *out, size_t out_len);

/* The report of a query by words: its set (plain, rollup or cube), its columns and its aggregates, each separated by
 * commas, and its conditions, one a line. What is empty was left out. The rest is as above. */
int64_t ssbcube_cube(const uint8_t *image, size_t image_len, const uint8_t *set, size_t set_len, const uint8_t *by,
                     size_t by_len, const uint8_t *agg, size_t agg_len, const uint8_t *conditions,
                     size_t conditions_len, int64_t as_of, const uint8_t *format, size_t format_len, uint8_t *out,
                     size_t out_len);

/* The journal that makes a warehouse without batches of the bytes of a file: those of a new file, all zeros, of 64
 * sectors of 512 bytes or more. The dimensions are the rows of four tables, in lines as in the files of the benchmark.
 *
 * Nothing is changed by the call. The program gives the file the calls of the journal, as ssbcube_apply does, and holds
 * a lock on the file meanwhile that excludes all others, from before it reads the bytes. A journal has the calls in order:
 * for a write the number of a sector in four bytes, the lowest first, and its 512 bytes; and for an fsync the number
 * 0xFFFFFFFF. However many of them were made, a crash leaves a file without a valid superblock, or the warehouse.
 *
 * At a fault `message` gets the line that the program ssbcube prints of it, such as
 * "fault 10 BadNumber line 17 field 3", cut to its length, and a zero byte; 80 bytes are enough. Else it stays as it was. */
int64_t ssbcube_create(const uint8_t *image, size_t image_len, const uint8_t *customer, size_t customer_len,
                       const uint8_t *supplier, size_t supplier_len, const uint8_t *part, size_t part_len,
                       const uint8_t *date, size_t date_len, uint8_t *out, size_t out_len, uint8_t *message,
                       size_t message_len);

/* The journal that loads fact rows into the warehouse that the bytes of a file hold, in batches of so many rows, 1 to
 * 65,536, the first of them with a number, from 1; SSBCUBE_BAD_QUERY for other numbers. A batch that is there already is
 * passed over where it has exactly these rows. It is the journal of all batches: at a fault there is none. However many
 * of its calls were made, a crash leaves the warehouse with the first batches of the text, maybe with none or all. */
int64_t ssbcube_load(const uint8_t *image, size_t image_len, uint32_t first, uint32_t rows, const uint8_t *lineorder,
                     size_t lineorder_len, uint8_t *out, size_t out_len, uint8_t *message, size_t message_len);

#if defined(_POSIX_C_SOURCE) && _POSIX_C_SOURCE >= 200809L
/* Gives a file, open for writing, the calls of a journal, in order. 0, or -1 with errno, which is EINVAL where the bytes
 * are no journal. Once it has failed, the file is as a crash may leave it: read it again before the next call. */
static inline int ssbcube_apply(int fd, const uint8_t *journal, size_t len) {
    const uint8_t *end = journal + len;
    while (journal != end) {
        if (end - journal < 4)
            return errno = EINVAL, -1;
        uint32_t sector = (uint32_t)journal[0] | (uint32_t)journal[1] << 8 | (uint32_t)journal[2] << 16 |
                          (uint32_t)journal[3] << 24;
        journal += 4;
        if (sector == UINT32_MAX) {
            if (fsync(fd) != 0)
                return -1;
            continue;
        }
        if (end - journal < 512)
            return errno = EINVAL, -1;
        for (size_t done = 0; done < 512;) {
            ssize_t more = pwrite(fd, journal + done, 512 - done, (off_t)sector * 512 + (off_t)done);
            if (more < 0 && errno != EINTR)
                return -1;
            done += more > 0 ? (size_t)more : 0;
        }
        journal += 512;
    }
    return 0;
}
#endif

#ifdef __cplusplus
}
#endif
#endif
