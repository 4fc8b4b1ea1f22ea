/* passes SECONDS FILE...: prints a table of the median times of wuroike_check_project and of wuroike_check, called by turns on the same lent
 * memory: each model with 1,024 and 131,072 lines lent, and with work memory for 682 lines and for 100,200. The buffers are cleared before
 * each call, outside the time. It fails if the two differ in an answer or a line.
 *
 * Passes are counted as crates/staging makes them: the first counts all lines and writes the first batch, each further batch is one more. The
 * cost of a further pass is taken from the difference of the two calls, since wuroike_check takes one. */
#include <inttypes.h>
#include <stdlib.h>

#include "model.h"

enum { ROOM = 131072, PLACES = 100200, LEAST = 3, MOST = 2001 };

static uint64_t work[PLACES * WUROIKE_LINE];
static wuroike_line lines[2][ROOM];
static double times[2][MOST];

/* What a call says. */
struct answer {
    uint64_t refusal, first, second;
};

/* One call, 0 of wuroike_check_project and 1 of wuroike_check; its time is kept as the k-th. */
static struct answer call(int which, int k, size_t work_length, size_t room) {
    struct answer a;
    const uint8_t *kinds = file + 8, *text = kinds + 9 * records;
    memset(work, 0, work_length * 8);
    memset(lines[which], 0, room * sizeof lines[which][0]);
    double start = now();
    if (which == 0) {
        a.refusal = wuroike_check_project(kinds, records, words, records, text, text_length, work, work_length, lines[0], room, &a.first, &a.second);
    } else {
        a.refusal = wuroike_check(kinds, records, words, records, text, text_length, work, work_length, &lines[1][0].code,
                                  room * WUROIKE_LINE, &a.first, &a.second);
    }
    times[which][k] = now() - start;
    return a;
}

/* A row of the table; 0 if the calls differ. */
static int row(size_t work_length, size_t room, double seconds) {
    struct answer a = {0, 0, 0}, b;
    double began = now();
    int k = 0;
    for (; k < LEAST || (k < MOST && now() - began < seconds * 1e9); k++) {
        a = call(0, k, work_length, room);
        b = call(1, k, work_length, room);
        if (memcmp(&a, &b, sizeof a) != 0 || memcmp(lines[0], lines[1], room * sizeof lines[0][0]) != 0) {
            return 0;
        }
    }
    qsort(times[0], k, sizeof times[0][0], order);
    qsort(times[1], k, sizeof times[1][0], order);
    uint64_t due = a.first < room ? a.first : room, places = work_length / WUROIKE_LINE, passes = due == 0 ? 1 : (due + places - 1) / places;
    double ours = times[0][k / 2] / 1e3, flat = times[1][k / 2] / 1e3;
    printf("| %" PRIu64 " | %zu | %zu | %s | %" PRIu64 " | %.1f | %.1f | ", a.first, room, work_length,
           a.refusal == WUROIKE_REPORT ? "report" : "refusal 7", passes, ours, flat);
    if (passes > 1) {
        printf("%.1f ", (ours - flat) / (passes - 1));
    }
    printf("| %d |\n", k);
    return a.refusal == WUROIKE_REPORT || a.refusal == WUROIKE_MORE_LINES;
}

int main(int count, char **arguments) {
    static const size_t works[] = {WUROIKE_WORK, PLACES * WUROIKE_LINE}, rooms[] = {1024, ROOM};
    double seconds = count > 1 ? atof(arguments[1]) : 0;
    printf("| lines | lent | work words | answer | passes | check_project, us | check, us | a further pass, us | calls |\n|---|---|---|---|---|---|---|---|---|\n");
    for (int i = 2; i < count; i++) {
        if (!read_model(arguments[i])) {
            fprintf(stderr, "passes: %s is no model\n", arguments[i]);
            return 3;
        }
        for (int k = 0; k < 4; k++) {
            if (!row(works[k % 2], rooms[k / 2], seconds)) {
                fprintf(stderr, "passes: the calls differ on %s\n", arguments[i]);
                return 1;
            }
        }
    }
    return 0;
}
