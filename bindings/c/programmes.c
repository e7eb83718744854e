/* Follows standard input, and prints the programme identification each time that it changes: programmes < BITS
 *
 * What is kept of the stream between two reads is an rds_stream_t, however long the stream is.
 */
#include <rds.h>

#include <stdio.h>

enum { CHUNK = 64, ROOM = 16 * CHUNK };

static const rds_rules_t rules = RDS_RULES;
static rds_stream_t stream; /* zeros: nothing was heard yet */
static rds_item_t items[ROOM];
static int32_t last = -1;

/* Prints what changes with these items. A programme identification is the information word of a group's first block. */
static void print_changes(uint64_t count)
{
    for (uint64_t k = 0; k < count; k++) {
        const rds_block_t *first = &items[k].blocks[0];
        if (items[k].what == RDS_GROUP && first->kind >= RDS_VALID && first->info != last)
            printf("%04X\n", (unsigned)(last = first->info));
    }
    fflush(stdout);
}

static int refused(uint8_t number)
{
    fprintf(stderr, "refused %d %s: %s\n", number, rds_refusal_text(number), rds_refusal_reason(number));
    return 1;
}

int main(void)
{
    uint8_t bytes[CHUNK], number;
    size_t len;
    uint64_t taken, count;
    rds_totals_t totals;
    while ((len = fread(bytes, 1, CHUNK, stdin)) > 0) {
        for (size_t at = 0; at < len; at += taken) {
            if ((number = rds_push(bytes + at, len - at, NULL, 0, &rules, &stream, items, ROOM, &taken, &count)))
                return refused(number);
            print_changes(count);
        }
    }
    if ((number = rds_finish(NULL, 0, &rules, &stream, items, ROOM, &count, &totals)))
        return refused(number);
    print_changes(count);
    return 0;
}
