/* Asks the warehouse in a file for a report, and prints it:
 *
 *   example FILE FORMAT AS_OF report NUMBER
 *   example FILE FORMAT AS_OF cube SET BY AGG [CONDITION]...
 *
 * AS_OF is a number of batches, or -1 for all. An empty word was left out. The status is 1 at a fault. */
#include "ssbcube.h"
#include <stdio.h>
#include <stdlib.h>
#include <string.h>

struct bytes {
    uint8_t *at;
    size_t len;
};

static struct bytes room_for(size_t len) {
    struct bytes room = {malloc(len + 1), len};
    if (!room.at) {
        fputs("no memory\n", stderr);
        exit(2);
    }
    return room;
}

static struct bytes read_whole(const char *path) {
    FILE *file = fopen(path, "rb");
    if (!file || fseek(file, 0, SEEK_END) != 0) {
        perror(path);
        exit(2);
    }
    struct bytes whole = room_for((size_t)ftell(file));
    rewind(file);
    if (fread(whole.at, 1, whole.len, file) != whole.len) {
        perror(path);
        exit(2);
    }
    fclose(file);
    return whole;
}

/* The conditions, one a line. */
static struct bytes lines_of(char **words, int count) {
    size_t len = 0;
    for (int i = 0; i < count; i++)
        len += strlen(words[i]) + (i > 0);
    struct bytes lines = room_for(len);
    uint8_t *at = lines.at;
    for (int i = 0; i < count; i++) {
        if (i > 0)
            *at++ = '\n';
        memcpy(at, words[i], strlen(words[i]));
        at += strlen(words[i]);
    }
    return lines;
}

#define TEXT(word) (const uint8_t *)(word), strlen(word)

static int64_t ask(struct bytes image, char **words, struct bytes conditions, struct bytes out) {
    int64_t as_of = strtoll(words[3], NULL, 10);
    if (strcmp(words[4], "report") == 0)
        return ssbcube_report(image.at, image.len, TEXT(words[5]), as_of, TEXT(words[2]), out.at, out.len);
    return ssbcube_cube(image.at, image.len, TEXT(words[5]), TEXT(words[6]), TEXT(words[7]), conditions.at,
                        conditions.len, as_of, TEXT(words[2]), out.at, out.len);
}

int main(int count, char **words) {
    if (count < 6 || (strcmp(words[4], "report") != 0 && (strcmp(words[4], "cube") != 0 || count < 8))) {
        fputs("example FILE FORMAT AS_OF (report NUMBER | cube SET BY AGG [CONDITION]...)\n", stderr);
        return 2;
    }
    struct bytes image = read_whole(words[1]);
    struct bytes conditions = lines_of(words + 8, count > 8 ? count - 8 : 0);
    struct bytes out = room_for(8);
    int64_t len = ask(image, words, conditions, out);
    if (len > (int64_t)out.len) {
        free(out.at);
        out = room_for((size_t)len);
        len = ask(image, words, conditions, out);
    }
    if (len < 0)
        fprintf(stderr, "fault %lld\n", (long long)-len);
    else
        fwrite(out.at, 1, (size_t)len, stdout);
    free(image.at);
    free(conditions.at);
    free(out.at);
    return len < 0;
}
