/* What the programs of the bench share: a model read from a file, and times in nanoseconds. */
#ifndef BENCH_MODEL_H
#define BENCH_MODEL_H

#include <stdio.h>
#include <string.h>
#include <time.h>

#include "wuroike.h"

enum { LONGEST = 8 + 9 * WUROIKE_RECORDS + WUROIKE_TEXT };

/* The file, its words, and the numbers of its records and of its bytes of text. */
static uint8_t file[LONGEST + 1];
static uint64_t words[WUROIKE_RECORDS];
static size_t records, text_length;

/* Reads a model; 0 if it can't. */
static inline int read_model(const char *path) {
    FILE *in = fopen(path, "rb");
    if (in == NULL) {
        return 0;
    }
    size_t length = fread(file, 1, sizeof file, in);
    fclose(in);
    uint32_t sizes[2] = {0, 0};
    memcpy(sizes, file, 8);
    records = sizes[0];
    text_length = sizes[1];
    if (length < 8 || records > WUROIKE_RECORDS || text_length > WUROIKE_TEXT || length != 8 + 9 * records + text_length) {
        return 0;
    }
    memcpy(words, file + 8 + records, 8 * records);
    return 1;
}

/* The last part of a path. */
static inline const char *name_of(const char *path) {
    const char *slash = strrchr(path, '/');
    return slash == NULL ? path : slash + 1;
}

static inline double now(void) {
    struct timespec t;
    clock_gettime(CLOCK_MONOTONIC, &t);
    return t.tv_sec * 1e9 + t.tv_nsec;
}

/* The order of two times, for qsort. */
static inline int order(const void *a, const void *b) {
    double x = *(const double *)a, y = *(const double *)b;
    return (x > y) - (x < y);
}

#endif
