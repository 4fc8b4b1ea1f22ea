/* check FILE: checks the model in a file and prints its report in document 01's form. The exit status is 0 for no line but warnings, 1 for
 * a line with an error, 2 for a refusal, 3 if it could not run. All memory is static. */
#include <inttypes.h>
#include <stdio.h>
#include <string.h>

#include "wuroike.h"

enum { ROOM = 1024, LONGEST = 8 + 9 * WUROIKE_RECORDS + WUROIKE_TEXT };

static uint8_t file[LONGEST + 1];
static uint64_t words[WUROIKE_RECORDS];
static uint64_t work[WUROIKE_WORK];
static wuroike_line lines[ROOM];

/* The number in `size` bytes, low byte first. */
static uint64_t number(const uint8_t *bytes, int size) {
    uint64_t n = 0;
    while (size-- > 0) {
        n = n << 8 | bytes[size];
    }
    return n;
}

/* Prints a field that may have no value. */
static void field(uint64_t value) {
    if (value == WUROIKE_NONE) {
        printf(" -");
    } else {
        printf(" %" PRIu64, value);
    }
}

/* Prints name n of the text. */
static void name(const uint8_t *text, uint64_t n) {
    if (n == WUROIKE_NONE) {
        printf(" -");
        return;
    }
    while (n-- > 0) {
        text += strlen((const char *)text) + 1;
    }
    printf(" %s", (const char *)text);
}

/* Prints a line. */
static void print(const wuroike_line *line, const uint8_t *text) {
    static const char *const places[] = {"package", "enum", "type", "constant", "node"};
    printf("%c%04" PRIu64 " %s %" PRIu64, line->code == 51 ? 'W' : 'E', line->code, places[line->place], line->number);
    field(line->equation);
    field(line->step);
    name(text, line->name);
    printf("\n");
}

/* Checks the records and the text of the file and prints the answer. */
static int report(uint64_t records, uint64_t text_length) {
    const uint8_t *kinds = file + 8;
    const uint8_t *text = kinds + 9 * records;
    for (uint64_t i = 0; i < records; i++) {
        words[i] = number(kinds + records + 8 * i, 8);
    }
    uint64_t first, second;
    uint64_t refusal = wuroike_check(kinds, records, words, records, text, text_length, work, WUROIKE_WORK, &lines[0].code,
                                     ROOM * WUROIKE_LINE, &first, &second);
    if (refusal != WUROIKE_REPORT) {
        printf("refused %" PRIu64 " at %" PRIu64 "\n", refusal, first);
        return 2;
    }
    printf("lines %" PRIu64 " followed %" PRIu64 "\n", first, second);
    int status = 0;
    for (uint64_t i = 0; i < first; i++) {
        print(&lines[i], text);
        status |= lines[i].code != 51;
    }
    return status;
}

int main(int count, char **arguments) {
    FILE *in = count == 2 ? fopen(arguments[1], "rb") : NULL;
    if (in == NULL) {
        fprintf(stderr, "usage: check FILE\n");
        return 3;
    }
    size_t length = fread(file, 1, sizeof file, in);
    if (ferror(in)) {
        fprintf(stderr, "check: %s can't be read\n", arguments[1]);
        return 3;
    }
    fclose(in);
    if (length == 0) {
        return report(0, 0); /* an empty file is a blank model */
    }
    uint64_t records = length < 8 ? WUROIKE_RECORDS + 1 : number(file, 4);
    uint64_t text_length = length < 8 ? 0 : number(file + 4, 4);
    if (records > WUROIKE_RECORDS || text_length > WUROIKE_TEXT || length != 8 + 9 * records + text_length) {
        printf("refused 1 at 0\n");
        return 2;
    }
    return report(records, text_length);
}
