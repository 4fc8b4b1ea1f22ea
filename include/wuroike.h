/* Wuroike: the check of a project of a Lustre dialect, as a call on lent memory, in two forms that give the same answers.
 *
 * Link libexports.a (`rt lib` in crates/exports). It needs memcpy and memset and nothing else: no heap, no files, no static memory that is
 * written, no locks. Calls on memory that does not overlap may run at once in several threads.
 *
 * A call reads the records and the text, writes the work memory, the lines and the two numbers, and nothing else. It is proved for all
 * contents and all lengths that it stays within what is lent, ends, and answers as its contract says (crates/exports, crates/project,
 * crates/checker).
 * What a caller owes is what C can't say: each pointer goes to that many elements, the buffers that are written overlap no other, and there
 * is stack (see below).
 */
#ifndef WUROIKE_H
#define WUROIKE_H

#include <stddef.h>
#include <stdint.h>

#ifdef __cplusplus
extern "C" {
#endif

/* Limits of an accepted project. */
enum {
    WUROIKE_RECORDS = 4096,     /* most records */
    WUROIKE_TEXT = 16384,       /* most bytes of text */
    WUROIKE_NAMES = 512,        /* most names */
    WUROIKE_NAME = 64,          /* most bytes of a name */
    WUROIKE_TYPE_LEVELS = 68,   /* most levels of a type */
    WUROIKE_LEVELS = 60,        /* most levels of an expression */
    WUROIKE_WORK = 4096,        /* least words of work memory */
    WUROIKE_LINE = 6            /* words of a line */
};

/* The value of a field that has none. */
#define WUROIKE_NONE UINT64_MAX

/* A line of the report: six words. */
typedef struct wuroike_line {
    uint64_t code;     /* 1 to 150: E and four digits, and W0051, which alone is a warning; docs/RULES.md has each */
    uint64_t place;    /* what it is about: one of wuroike_place */
    uint64_t number;   /* which one, from 0 over the whole project; enums count among the types */
    uint64_t equation; /* the equation from 0 within its node, or none */
    uint64_t step;     /* the record's distance from the start of its right-hand side or constant value, for code 60 the place in the
                          path, or none */
    uint64_t name;     /* the number of the declared, assigned, sought, called or iterated name, or none */
} wuroike_line;

/* What a line is about. */
enum wuroike_place {
    WUROIKE_PACKAGE = 0,
    WUROIKE_ENUM = 1,
    WUROIKE_TYPE = 2,
    WUROIKE_CONSTANT = 3,
    WUROIKE_NODE = 4
};

/* What a call returns: a report, or the lowest refusal that applies, where 8 stands beside 4, before 5. */
enum wuroike_answer {
    WUROIKE_REPORT = 0,     /* first: the number of lines; second: the number of edges that the search for loops followed */
    WUROIKE_SIZES = 1,      /* kinds and words differ in number, or too many records or bytes of text. first: 0 */
    WUROIKE_SHORT_WORK = 2, /* fewer than 4,096 words of work memory. first: how many */
    WUROIKE_BAD_NAME = 3,   /* a name is not 1 to 64 bytes closed by a zero byte, is not above the one before it in byte order, is a
                               reserved one, or is the 513th. first: its number */
    WUROIKE_BAD_KIND = 4,   /* the first bad record has an unknown kind. first: the record */
    WUROIKE_NO_PROJECT = 5, /* the records are not one project, or there are none and there are names. first: the first that can't stand
                               there, or their number */
    WUROIKE_TOO_DEEP = 6,   /* a type of more than 68 levels or an expression of more than 60. first: the first record too deep */
    WUROIKE_MORE_LINES = 7, /* the report has more lines than were lent. first: how many it has, at most 2^64 - 1 */
    WUROIKE_BAD_WORD = 8    /* the first bad record has a known kind and a word outside its range, such as a name number that is too
                               large. first: the record */
};

/* Checks a project. No records and no text are a project without packages: a report of no lines and no edges.
 *
 *   kinds, words   the records: their kinds, and a word each. Read.
 *   text           the names in byte order, each closed by a zero byte; a name's number is its place. Read.
 *   work           work memory. All of it is zero after answers 0 and 7, and unchanged after any other.
 *   lines          memory for lines, six words each; words past the last whole line are not used. After answer 0 the first `first` lines
 *                  are written, after answer 7 as many first lines as fit; nothing else is, and after any other answer nothing.
 *   first, second  where the two numbers of the answer go; second is 0 after a refusal.
 *
 * Each length is a number of elements: of bytes for kinds and text, of 8-byte words for words, work and lines. A pointer must not be null
 * and must be aligned for its elements, also where the length is 0.
 *
 * The lines may be declared as wuroike_line[n] and lent as &line[0].code with 6 * n words.
 *
 * Stack: proofs don't speak of it, so these are measured peaks of the call, in bytes (docs/PERFORMANCE.md). 60 levels of expression, the
 * deepest accepted: 1,003,448 (a fold), 616,088 (a map), 389,176 (if), less for all else. 4,096 nested records,
 * which are refused once all are read: 392,920. A path of 512 names: 87,072. A clean model: 56,792. Give a thread 1,200,000.
 * Static memory: none is written.
 */
uint64_t wuroike_check(const uint8_t *kinds, size_t kinds_length, const uint64_t *words, size_t words_length, const uint8_t *text,
                       size_t text_length, uint64_t *work, size_t work_length, uint64_t *lines, size_t lines_length, uint64_t *first,
                       uint64_t *second);

/* Checks a project, with the lines lent as an array of wuroike_line.
 *
 * All arguments, answers and what is left in the buffers are as above but for this: lines_length is a number of lines, and there are no words
 * past the last whole line.
 *
 * The lines go through the work memory, a batch of work_length / 6 at a time, and each batch takes one pass over the project, which makes the
 * whole report again: with 4,096 words a report of at most 682 lines takes one pass, one of 1,024 two, one of 100,199 lines 147.
 * wuroike_check takes one pass whatever the number of lines. Lend 6 words for each line to have one pass here too (docs/PERFORMANCE.md has
 * the times).
 *
 * Stack: 32,848 bytes more than above in every case, at most 1,036,296. Give a thread 1,200,000.
 */
uint64_t wuroike_check_project(const uint8_t *kinds, size_t kinds_length, const uint64_t *words, size_t words_length, const uint8_t *text,
                               size_t text_length, uint64_t *work, size_t work_length, wuroike_line *lines, size_t lines_length,
                               uint64_t *first, uint64_t *second);

#ifdef __cplusplus
}
#endif

#endif
