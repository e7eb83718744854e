/* Calls of the library that are timed, over standard input:
 *
 *   timed push CHUNK GAPS   rds_push, chunk by chunk of so many bytes
 *   timed look CHUNK GAPS   only a look at each gap once per chunk, which a call has to do at least
 *   timed run BITS GAPS     rds_run, range by range of so many bits; if 0, rds_items and then rds_totals of the whole
 *   timed calls             microseconds of rds_totals and of rds_items on the first 100 bytes, and of a push of a second's bits to one of
 *                           1,000 streams; and seconds of rds_totals on all
 *
 * There are so many gaps of one place each, nine places apart. It prints how many items there were. */
#include "rds.h"

#include <inttypes.h>
#include <stdio.h>
#include <stdlib.h>
#include <string.h>
#include <time.h>

enum { MOST = 1 << 26, CALLS = 100000, TURNS = 5, STREAMS = 1000, SECOND = 148 };
#define RECORDING bytes, len, 8 * (uint64_t)len, gaps, gaps_len, &rules

static const rds_rules_t rules = RDS_RULES;
static uint8_t *bytes;
static size_t len, gaps_len;
static rds_gap_t *gaps;
static rds_item_t *room;
static uint64_t count, all;
static rds_totals_t totals;

static int are_in_order(void)
{
    uint64_t before = 0, wrong = 0;
    for (size_t k = 0; k < gaps_len; k++) {
        wrong |= (gaps[k].begin < before) | (gaps[k].end <= gaps[k].begin);
        before = gaps[k].end;
    }
    return !wrong;
}

/* Whether all chunks are taken, each once it was read; or only looked at. */
static int in_chunks(size_t chunk, int is_look)
{
    rds_stream_t stream = {0};
    uint64_t taken;
    while ((len = fread(bytes, 1, chunk, stdin)) > 0) {
        if (is_look) {
            all += (uint64_t)are_in_order();
            continue;
        }
        if (rds_push(bytes, len, gaps, gaps_len, &rules, &stream, room, 16 * chunk, &taken, &count) || taken != len)
            return 0;
        all += count;
    }
    if (rds_finish(gaps, gaps_len, &rules, &stream, room, 1, &count, &totals))
        return 0;
    all += count;
    return 1;
}

static int in_ranges(uint64_t range)
{
    rds_state_t state = {0};
    const uint64_t bits = 8 * (uint64_t)len;
    for (uint64_t from = 0; from < bits; from += range) {
        const uint64_t to = bits - from < range ? bits : from + range;
        if (rds_run(RECORDING, from, to, &state, room, 2 * range, &count))
            return 0;
        all += count;
    }
    if (rds_finish_run(RECORDING, &state, room, 1, &count))
        return 0;
    all += count;
    return 1;
}

/* Whether the totals of the whole recording count as many items as it has. */
static int whole(void)
{
    if (rds_items(RECORDING, room, len + 1, &all) || rds_totals(RECORDING, &totals))
        return 0;
    return totals.groups + totals.acquired + totals.losses == all;
}

static int by_totals(void) { return rds_totals(RECORDING, &totals); }
static int by_items(void) { return rds_items(RECORDING, room, 100, &count); }

static int push_to_one(void)
{
    static rds_stream_t streams[STREAMS];
    static size_t turn;
    uint64_t taken;
    return rds_push(bytes, SECOND, NULL, 0, &rules, &streams[turn++ % STREAMS], room, 16 * SECOND, &taken, &count) || taken != SECOND;
}

/* The least seconds of `calls` calls in TURNS turns, or -1 if one was refused. */
static double least(int (*call)(void), int calls)
{
    double found = -1;
    for (int turn = 0; turn < TURNS; turn++) {
        struct timespec begin, end;
        clock_gettime(CLOCK_MONOTONIC, &begin);
        for (int k = 0; k < calls; k++)
            if (call())
                return -1;
        clock_gettime(CLOCK_MONOTONIC, &end);
        const double took = (double)(end.tv_sec - begin.tv_sec) + 1e-9 * (double)(end.tv_nsec - begin.tv_nsec);
        found = turn == 0 || took < found ? took : found;
    }
    return found;
}

static int calls(void)
{
    const size_t held = len;
    len = held < 100 ? held : 100;
    printf("%.2f %.2f ", 1e6 * least(by_totals, CALLS) / CALLS, 1e6 * least(by_items, CALLS) / CALLS);
    len = held;
    printf("%.2f ", len < SECOND ? -1 : 1e6 * least(push_to_one, CALLS) / CALLS);
    printf("%.4f\n", least(by_totals, 1));
    return 0;
}

int main(int words, char **word)
{
    const uint64_t size = words > 3 ? strtoull(word[2], NULL, 10) : 0;
    const int is_run = words > 1 && !strcmp(word[1], "run"), is_calls = words == 2 && !strcmp(word[1], "calls");
    gaps_len = words > 3 ? strtoul(word[3], NULL, 10) : 0;
    if (words < 4 && !is_calls)
        return 2;
    bytes = malloc(is_run || is_calls ? MOST : size);
    gaps = malloc((gaps_len + 1) * sizeof *gaps);
    for (size_t k = 0; gaps && k < gaps_len; k++)
        gaps[k] = (rds_gap_t){9 * k + 5, 9 * k + 6};
    if (is_run || is_calls)
        len = fread(bytes, 1, MOST, stdin);
    room = malloc((is_run && size ? 2 * size + 1 : is_run || is_calls ? len + 16 * SECOND : 16 * size) * sizeof *room);
    if (!bytes || !gaps || !room)
        return 2;
    if (is_calls)
        return calls();
    if (!(is_run ? (size ? in_ranges(size) : whole()) : in_chunks(size, !strcmp(word[1], "look"))))
        return 1;
    printf("%" PRIu64 " items\n", all);
    return 0;
}
