/* stack FILE...: prints for each model the most stack that its check takes, in bytes, by wuroike_check and by wuroike_check_project: the call
 * runs in a thread whose stack was filled with a pattern, and the bytes from the lowest one changed up to the caller's frame are counted. */
#include <inttypes.h>
#include <pthread.h>
#include <stdlib.h>

#include "model.h"

enum { SIZE = 16 << 20, ROOM = 1024, PATTERN = 0xA5 };

static uint64_t work[WUROIKE_WORK];
static wuroike_line lines[ROOM];
static uint64_t refusal, first, second;
static uint8_t *top;

/* The thread: the check of the model that was read, with the lines lent as words. */
static void *call(void *unused) {
    (void)unused;
    top = __builtin_frame_address(0);
    refusal = wuroike_check(file + 8, records, words, records, file + 8 + 9 * records, text_length, work, WUROIKE_WORK, &lines[0].code,
                            sizeof lines / 8, &first, &second);
    return NULL;
}

/* The same with the lines lent as structs. */
static void *call_project(void *unused) {
    (void)unused;
    top = __builtin_frame_address(0);
    refusal = wuroike_check_project(file + 8, records, words, records, file + 8 + 9 * records, text_length, work, WUROIKE_WORK, lines, ROOM,
                                    &first, &second);
    return NULL;
}

/* The most stack that a thread takes; 0 if it can't run. */
static ptrdiff_t peak(void *(*thread)(void *), pthread_attr_t *attributes, uint8_t *stack) {
    memset(stack, PATTERN, SIZE);
    pthread_t id;
    if (pthread_create(&id, attributes, thread, NULL) != 0 || pthread_join(id, NULL) != 0) {
        return 0;
    }
    uint8_t *low = stack;
    while (*low == PATTERN) {
        low++;
    }
    return top - low;
}

int main(int count, char **paths) {
    uint8_t *stack = aligned_alloc(4096, SIZE);
    pthread_attr_t attributes;
    if (stack == NULL || pthread_attr_init(&attributes) != 0 || pthread_attr_setstack(&attributes, stack, SIZE) != 0) {
        return 3;
    }
    for (int i = 1; i < count; i++) {
        if (!read_model(paths[i])) {
            fprintf(stderr, "stack: %s is no model\n", paths[i]);
            return 3;
        }
        ptrdiff_t flat = peak(call, &attributes, stack), structs = peak(call_project, &attributes, stack);
        if (flat == 0 || structs == 0) {
            return 3;
        }
        printf("%9td %9td  %5zu records  answer %" PRIu64 " %" PRIu64 "  %s\n", flat, structs, records, refusal, first, name_of(paths[i]));
    }
    return 0;
}
