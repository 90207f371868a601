/* Lists a table of five links through the C interface, asks why something is no group, and has a table refused.
 *
 *     bash .ci/library
 *     cc -Iinclude examples/list.c target/staticlib/libexports.a -o target/list_c
 */
#include <inttypes.h>
#include <stdio.h>

#include "jointrise.h"

/* begin, end, one gauge, the other */
static const uint32_t table[] = {
    1, 9, 0, 1, 3, 12, 1, 2, 5, 14, 0, 2, 7, 20, 2, 3, 10, 18, 1, 3,
};

static const size_t numbers = sizeof table / sizeof table[0];

static void print_refusal(struct jointrise_reply reply)
{
    printf("refused %" PRIu64 " %" PRIu64 "\n", reply.reason, reply.place);
}

/* Begin, end and the gauges, ascending. */
static void print_row(const uint64_t row[3])
{
    printf("%" PRIu64 " %" PRIu64 " ", row[0], row[1]);
    const char *comma = "";
    for (int gauge = 0; gauge < 64; gauge++) {
        if (row[2] >> gauge & 1) {
            printf("%s%d", comma, gauge);
            comma = ",";
        }
    }
    printf("\n");
}

static void list(void)
{
    uint64_t rows[3 * 16];
    struct jointrise_reply reply;
    jointrise_list(table, numbers, 4, rows, sizeof rows / sizeof rows[0], &reply);
    if (reply.reason != JOINTRISE_NOT_REFUSED) {
        print_refusal(reply);
        return;
    }
    printf("groups %" PRIu64 "\n", reply.answer);
    for (uint64_t i = 0; i < reply.answer; i++)
        print_row(&rows[3 * i]);
}

/* Are gauges 0 and 1 a group over the hours 5 to 9? */
static void ask(void)
{
    struct jointrise_reply reply;
    jointrise_ask(table, numbers, 4, 3, 5, 9, &reply);
    if (reply.reason == JOINTRISE_NOT_REFUSED && reply.answer == JOINTRISE_EARLIER)
        printf("gauges 0,1 from 5 to 9: can begin at %" PRIu64 "\n", reply.first);
}

/* With three gauges, link 3 names a gauge that isn't there. */
static void refuse(void)
{
    struct jointrise_reply reply;
    jointrise_check(table, numbers, 3, &reply);
    if (reply.reason != JOINTRISE_NOT_REFUSED)
        print_refusal(reply);
}

int main(void)
{
    list();
    ask();
    refuse();
    return 0;
}
