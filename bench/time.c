/* time CALLS FILE...: prints for each model the median time of so many checks in nanoseconds, and the time a record. The buffers are
 * cleared before each call, outside the time. */
#include <inttypes.h>
#include <stdlib.h>

#include "model.h"

enum { ROOM = 131072, MOST = 100000 };

static uint64_t work[WUROIKE_WORK];
static uint64_t lines[ROOM * WUROIKE_LINE];
static double times[MOST];

int main(int count, char **arguments) {
    int calls = count > 1 ? atoi(arguments[1]) : 0;
    if (calls < 1 || calls > MOST) {
        return 3;
    }
    for (int i = 2; i < count; i++) {
        if (!read_model(arguments[i])) {
            return 3;
        }
        uint64_t refusal = 0, first = 0, second = 0;
        for (int k = 0; k < calls; k++) {
            memset(work, 0, sizeof work);
            memset(lines, 0, (first + 1 < ROOM ? first + 1 : ROOM) * 48);
            double start = now();
            refusal = wuroike_check(file + 8, records, words, records, file + 8 + 9 * records, text_length, work, WUROIKE_WORK, lines,
                                    sizeof lines / 8, &first, &second);
            times[k] = now() - start;
        }
        qsort(times, calls, sizeof times[0], order);
        printf("%10.0f ns  %6.1f ns a record  %5zu records  answer %" PRIu64 " %" PRIu64 "  %s\n", times[calls / 2], times[calls / 2] / records,
               records, refusal, first, name_of(arguments[i]));
    }
    return 0;
}
