/* jointrise: the groups of gauges that rose together.
 *
 * Link with libexports.a, which `bash .ci/library` makes from proved code. It calls memcpy and memset and nothing else.
 *
 * THE TABLE. Links stand one after another, four numbers a link: begin, end, one gauge, the other. Gauges are numbered from 0 below the
 * gauge count, which is 1 to 64; hours run from 0 to 2,147,483,647; a table holds at most 2,048 links. An array of structs of four uint32_t in this order
 * is such a table: pass the address of its first number, and four times its length.
 *
 * WHAT IS LENT. Memory is lent as a pointer and a count of numbers or bytes, never kept after the call, and owned by the caller throughout.
 * What is passed as `const` is only read. No entry takes memory of its own from a heap, keeps a state, or locks anything: calls from several
 * threads don't meet unless they are lent the same memory.
 *
 * WHAT THE CALLER OWES, and no entry can test:
 *   - A pointer with a count above 0 points to that many numbers, aligned as their type is. With a count of 0 it may be null.
 *   - `reply` points to one struct jointrise_reply, is aligned, and is not null.
 *   - What an entry writes (reply, and what is lent without `const`) overlaps nothing else that is lent to the same call.
 *   - 64 KiB of stack are free where the entry is called, and 192 KiB for jointrise_listing. What a thread takes for itself comes on top.
 * Everything else is tested: any numbers, any counts and any bytes get a reply.
 *
 * THE REPLY. Every call writes all five numbers of *reply. What was there before doesn't matter.
 */
#ifndef JOINTRISE_H
#define JOINTRISE_H

#include <stddef.h>
#include <stdint.h>

#ifdef __cplusplus
extern "C" {
#endif

struct jointrise_reply {
    uint64_t reason; /* 0: not refused; else the number of the reason below */
    uint64_t place;  /* refused: where, a link's number from 0 or an offset in bytes; else 0 */
    uint64_t answer; /* not refused: as each entry says; else 0 */
    uint64_t first;  /* not refused: as each entry says; else 0 */
    uint64_t second; /* not refused: as each entry says; else 0 */
};

/* Reasons, with what `place` is. */
enum jointrise_reason {
    JOINTRISE_NOT_REFUSED = 0,
    JOINTRISE_NOT_FOURS = 1,          /* the count of numbers isn't a multiple of four; 0 */
    JOINTRISE_TOO_MANY_LINKS = 2,     /* more than 2,048 links; 0 */
    JOINTRISE_GAUGE_COUNT = 3,        /* gauge count 0 or above 64; 0 */
    JOINTRISE_UNKNOWN_GAUGE = 4,      /* a gauge of the link isn't below the gauge count; link */
    JOINTRISE_SAME_GAUGE = 5,         /* the link's two gauges are the same; link */
    JOINTRISE_ENDS_BEFORE_BEGIN = 6,  /* the link ends before it begins; link */
    JOINTRISE_ENDS_TOO_LATE = 7,      /* the link ends after hour 2,147,483,647; link */
    JOINTRISE_SHARED_HOUR = 8,        /* it shares an hour with an earlier link of the same two gauges; link */
    JOINTRISE_TOO_FEW_ROWS = 9,       /* list: more groups than whole rows lent; 0 */
    JOINTRISE_UNKNOWN_MEMBER = 10,    /* ask: a member at or above the gauge count; 0 */
    JOINTRISE_TOO_FEW_MEMBERS = 11,   /* ask: fewer than two members; 0 */
    JOINTRISE_BEGIN_AFTER_END = 12,   /* ask: begin after end; 0 */
    JOINTRISE_FILE_ENDS = 20,         /* read: the file ends before its closing record is complete; offset of the record */
    JOINTRISE_KIND = 21,              /* read: kind unknown, or not allowed here; offset of the record */
    JOINTRISE_LENGTH = 22,            /* read: length isn't that of its kind; offset of the record */
    JOINTRISE_CLOSING_COUNT = 23,     /* read: closing count differs from the links read; offset of the record */
    JOINTRISE_BYTES_AFTER = 24,       /* read: bytes after the closing record; offset of the first of them */
    JOINTRISE_NO_ROOM = 25,           /* read: no room for this link; offset of the record */
    JOINTRISE_BUFFER_TOO_SHORT = 26   /* write: file longer than the buffer; 0 */
};

/* No text of jointrise_listing is longer. */
#define JOINTRISE_LISTING_MOST 440332

/* Verdicts of jointrise_ask, with what `first` and `second` are. */
enum jointrise_verdict {
    JOINTRISE_MISSING = 1, /* a pair isn't joined throughout: the first such pair, lower gauge and higher gauge */
    JOINTRISE_EARLIER = 2, /* the span can begin earlier: the earliest begin with this end */
    JOINTRISE_LATER = 3,   /* the span can end later: the latest end with this begin */
    JOINTRISE_FURTHER = 4, /* a further gauge fits: the lowest */
    JOINTRISE_GROUP = 5    /* it is a group */
};

/* Whether the numbers are a table. Reasons 1 to 8; answer, first and second are 0. */
void jointrise_check(const uint32_t *numbers, size_t numbers_count, uint32_t gauges,
                     struct jointrise_reply *reply);

/* The groups of the table, into `rows`, three numbers a row: begin, end, members (bit k is gauge k); by begin, then end, then members.
 * Answer: the number k of groups; they are the first k rows, and no other number is changed.
 * Reasons 1 to 8: no number of `rows` is changed. Reason 9: every number of the whole rows is 0, the one or two left over are unchanged.
 * The whole rows are rows_count / 3. */
void jointrise_list(const uint32_t *numbers, size_t numbers_count, uint32_t gauges,
                    uint64_t *rows, size_t rows_count,
                    struct jointrise_reply *reply);

/* Whether these members, over the hours from begin to end, are a group, and if not, why.
 * Answer: the verdict; first and second: its cause, or 0. Reasons 1 to 8, 10, 11, 12. */
void jointrise_ask(const uint32_t *numbers, size_t numbers_count, uint32_t gauges,
                   uint64_t members, uint64_t begin, uint64_t end,
                   struct jointrise_reply *reply);

/* Reads a link file into `numbers`, four a link. Reasons 1 to 8 are not tested: pass the numbers on to another entry.
 * Answer: the count n of links; first: the gauge count. The first 4n numbers are the table, and no other number is changed.
 * Reasons 20 to 25: no number is changed. */
void jointrise_read(const uint8_t *bytes, size_t bytes_count,
                    uint32_t *numbers, size_t numbers_count,
                    struct jointrise_reply *reply);

/* Writes the link file of a table into `bytes`. A file of n links has 18n + 18 bytes, so at most 36,882.
 * Answer: the length of the file; it is the first bytes, and no other byte is changed.
 * Reasons 1 to 8 and 26: no byte is changed. */
void jointrise_write(const uint32_t *numbers, size_t numbers_count, uint32_t gauges,
                     uint8_t *bytes, size_t bytes_count,
                     struct jointrise_reply *reply);

/* The listing of a link file, as the listing program prints it: a line with the number of groups and a line a group, or one line with why the file or its table is
 * refused, by reason 27 (more than 40,960 bytes of input) among others. The text is in `out`; it has no 0 behind it.
 * Answer: the length of the text, which is 1 at least; no other byte is changed. If `out` is too short, the answer is 0, and no byte is changed.
 * Never refused: the reason is 0, since a refusal is a text too. There is room for 2,048 links and 2,048 groups. */
void jointrise_listing(const uint8_t *input, size_t input_count,
                       uint8_t *out, size_t out_count,
                       struct jointrise_reply *reply);

#ifdef __cplusplus
}
#endif

#endif
