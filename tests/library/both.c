/* both FILE...: calls wuroike_check and wuroike_check_project on each model, with several sizes of the lent memory and with lengths that differ,
 * and says where the answers, the work memory or the lines differ. The exit status is 0 if they never do, 1 if they do, 3 if it could not
 * run. A file that is no model is taken as no records and no text. All memory is static. */
#include <inttypes.h>
#include <stdio.h>
#include <string.h>

#include "wuroike.h"

enum { ROOM = 2048, WORK = ROOM * WUROIKE_LINE, LONGEST = 8 + 9 * WUROIKE_RECORDS + WUROIKE_TEXT, UNTOUCHED = 0xA5 };

/* What one call is lent, and what it says. */
struct call {
    uint64_t work[WORK];
    wuroike_line lines[ROOM];
    uint64_t refusal, first, second;
};

static uint8_t file[LONGEST + 1];
static uint64_t words[WUROIKE_RECORDS];
static struct call one, other;

/* The number in `size` bytes, low byte first. */
static uint64_t number(const uint8_t *bytes, int size) {
    uint64_t n = 0;
    while (size-- > 0) {
        n = n << 8 | bytes[size];
    }
    return n;
}

/* Both calls, with so many records, words and bytes of text, and so many words of work memory and lines: whether they agree. */
static int same(size_t records, size_t words_length, size_t text_length, size_t work, size_t room) {
    const uint8_t *kinds = file + 8, *text = kinds + 9 * records;
    memset(&one, UNTOUCHED, sizeof one);
    memset(&other, UNTOUCHED, sizeof other);
    one.refusal = wuroike_check(kinds, records, words, words_length, text, text_length, one.work, work, &one.lines[0].code,
                                room * WUROIKE_LINE, &one.first, &one.second);
    other.refusal = wuroike_check_project(kinds, records, words, words_length, text, text_length, other.work, work, other.lines, room,
                                          &other.first, &other.second);
    return memcmp(&one, &other, sizeof one) == 0;
}

/* Reads a model: its numbers of records and of bytes of text, none of either if it is no model. 0 if the file can't be read. */
static int read_model(const char *path, size_t *records, size_t *text_length) {
    FILE *in = fopen(path, "rb");
    if (in == NULL) {
        return 0;
    }
    size_t length = fread(file, 1, sizeof file, in);
    fclose(in);
    uint64_t kinds = length < 8 ? 0 : number(file, 4), text = length < 8 ? 0 : number(file + 4, 4);
    int good = kinds <= WUROIKE_RECORDS && text <= WUROIKE_TEXT && length == 8 + 9 * kinds + text;
    *records = good ? kinds : 0;
    *text_length = good ? text : 0;
    for (size_t i = 0; i < *records; i++) {
        words[i] = number(file + 8 + *records + 8 * i, 8);
    }
    return 1;
}

int main(int count, char **paths) {
    static const size_t works[] = {0, WUROIKE_WORK - 1, WUROIKE_WORK, WUROIKE_WORK + 1, 5000, WORK};
    static const size_t rooms[] = {0, 1, 3, 341, 681, 682, 683, 1023, 1024, 1025, 1364, 1365, ROOM};
    int status = 0;
    for (int i = 1; i < count; i++) {
        size_t records, text_length;
        if (!read_model(paths[i], &records, &text_length)) {
            fprintf(stderr, "both: %s can't be read\n", paths[i]);
            return 3;
        }
        for (size_t k = 0; k < sizeof works / sizeof works[0] * (sizeof rooms / sizeof rooms[0]) * 2; k++) {
            size_t work = works[k / 2 % (sizeof works / sizeof works[0])], room = rooms[k / 2 / (sizeof works / sizeof works[0])];
            size_t length = k % 2 == 0 || records == 0 ? records : records - 1;
            if (!same(records, length, text_length, work, room)) {
                printf("%s: the calls differ with %zu words, %zu of work memory and %zu lines lent\n", paths[i], length, work, room);
                status = 1;
            }
        }
    }
    return status;
}
