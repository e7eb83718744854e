/* What librds looks at before the proved code is called: the pointers that it is lent, as far as C can see them.
 *
 * Each function has the name and the arguments that rds.h declares, and refuses what the proved function of that name requires of
 * its caller and cannot see: lib/make_library.sh renames that one to proved_*. So this page is no part of the proof;
 * tests/library/border.py tries each pointer of each function. */
#include "heap.h"
#include "rds.h"

#include <stdbool.h>
#include <stddef.h>
#include <stdint.h>
#include <string.h>

/* Values in a row that a call is lent. */
struct lent {
    uintptr_t at;
    size_t count, size, alignment;
    bool is_written;
};

#define LENT(p, count, is_written) {(uintptr_t)(p), count, sizeof *(p), _Alignof(__typeof__(*(p))), is_written}
#define ONE(p) LENT(p, 1, false)
#define MANY(p) LENT(p, p##_len, false)
#define ONE_WRITTEN(p) LENT(p, 1, true)
#define MANY_WRITTEN(p) LENT(p, p##_len, true)

/* Whether no such values can be there. */
static bool is_nowhere(const struct lent *it)
{
    return it->count && (!it->at || it->at % it->alignment || it->count > PTRDIFF_MAX / it->size ||
                         it->count * it->size > UINTPTR_MAX - it->at);
}

static bool do_overlap(const struct lent *a, const struct lent *b)
{
    return a->count && b->count && a->at < b->at + b->count * b->size && b->at < a->at + a->count * a->size;
}

/* Whether some values cannot be there, or share bytes with values that are written. Values that are only read come first. */
static bool are_bad(const struct lent *lent, size_t count)
{
    for (size_t k = 0; k < count; k++)
        if (is_nowhere(&lent[k]))
            return true;
    for (size_t k = 1; k < count; k++)
        for (size_t j = 0; j < k; j++)
            if (lent[k].is_written && do_overlap(&lent[j], &lent[k]))
                return true;
    return false;
}

#define LOOK_AT(...)                                                                                                                  \
    do {                                                                                                                              \
        const struct lent lent[] = {__VA_ARGS__};                                                                                     \
        if (are_bad(lent, sizeof lent / sizeof *lent))                                                                                \
            return RDS_BAD_POINTER;                                                                                                   \
    } while (0)

/* The pointer and the number of values in a row, for the proved function. Without values the pointer is not NULL. */
static max_align_t none;
#define ROW(p) (p##_len ? (p) : (__typeof__(p))&none), p##_len

#define PROVED(name) extern __typeof__(name) proved_##name

PROVED(rds_totals);
uint8_t rds_totals(const uint8_t *bytes, size_t bytes_len, uint64_t bits, const rds_gap_t *gaps, size_t gaps_len,
                   const rds_rules_t *rules, rds_totals_t *found)
{
    LOOK_AT(MANY(bytes), MANY(gaps), ONE(rules), ONE_WRITTEN(found));
    return proved_rds_totals(ROW(bytes), bits, ROW(gaps), rules, found);
}

PROVED(rds_items);
uint8_t rds_items(const uint8_t *bytes, size_t bytes_len, uint64_t bits, const rds_gap_t *gaps, size_t gaps_len,
                  const rds_rules_t *rules, rds_item_t *room, size_t room_len, uint64_t *count)
{
    LOOK_AT(MANY(bytes), MANY(gaps), ONE(rules), MANY_WRITTEN(room), ONE_WRITTEN(count));
    return proved_rds_items(ROW(bytes), bits, ROW(gaps), rules, ROW(room), count);
}

PROVED(rds_run);
uint8_t rds_run(const uint8_t *bytes, size_t bytes_len, uint64_t bits, const rds_gap_t *gaps, size_t gaps_len,
                const rds_rules_t *rules, uint64_t from, uint64_t to, rds_state_t *state, rds_item_t *room, size_t room_len,
                uint64_t *count)
{
    LOOK_AT(MANY(bytes), MANY(gaps), ONE(rules), ONE_WRITTEN(state), MANY_WRITTEN(room), ONE_WRITTEN(count));
    return proved_rds_run(ROW(bytes), bits, ROW(gaps), rules, from, to, state, ROW(room), count);
}

PROVED(rds_finish_run);
uint8_t rds_finish_run(const uint8_t *bytes, size_t bytes_len, uint64_t bits, const rds_gap_t *gaps, size_t gaps_len,
                       const rds_rules_t *rules, const rds_state_t *state, rds_item_t *room, size_t room_len, uint64_t *count)
{
    LOOK_AT(MANY(bytes), MANY(gaps), ONE(rules), ONE(state), MANY_WRITTEN(room), ONE_WRITTEN(count));
    return proved_rds_finish_run(ROW(bytes), bits, ROW(gaps), rules, state, ROW(room), count);
}

PROVED(rds_push);
uint8_t rds_push(const uint8_t *bytes, size_t bytes_len, const rds_gap_t *gaps, size_t gaps_len, const rds_rules_t *rules,
                 rds_stream_t *stream, rds_item_t *room, size_t room_len, uint64_t *taken, uint64_t *count)
{
    LOOK_AT(MANY(bytes), MANY(gaps), ONE(rules), ONE_WRITTEN(stream), MANY_WRITTEN(room), ONE_WRITTEN(taken), ONE_WRITTEN(count));
    return proved_rds_push(ROW(bytes), ROW(gaps), rules, stream, ROW(room), taken, count);
}

/* The scratch is lent only for the call. What was lent before, to a call that a signal has interrupted, is lent again after it. */
static struct scratch lend(uint8_t *scratch, size_t scratch_len)
{
    const struct scratch before = heap_scratch;
    heap_scratch = (struct scratch){true, (uintptr_t)scratch, (uintptr_t)scratch + scratch_len};
    return before;
}

uint8_t rds_push_with(const uint8_t *bytes, size_t bytes_len, const rds_gap_t *gaps, size_t gaps_len, const rds_rules_t *rules,
                      rds_stream_t *stream, rds_item_t *room, size_t room_len, uint64_t *taken, uint64_t *count, uint8_t *scratch,
                      size_t scratch_len)
{
    LOOK_AT(MANY(bytes), MANY(gaps), ONE(rules), ONE_WRITTEN(stream), MANY_WRITTEN(room), ONE_WRITTEN(taken), ONE_WRITTEN(count),
            MANY_WRITTEN(scratch));
    const struct scratch before = lend(scratch, scratch_len);
    const uint8_t number = proved_rds_push(ROW(bytes), ROW(gaps), rules, stream, ROW(room), taken, count);
    heap_scratch = before;
    return number;
}

PROVED(rds_push_soft);
uint8_t rds_push_soft(const int8_t *symbols, size_t symbols_len, const rds_gap_t *gaps, size_t gaps_len, const rds_rules_t *rules,
                      uint8_t margin, rds_soft_t *soft, rds_item_t *room, size_t room_len, uint64_t *taken, uint64_t *count)
{
    LOOK_AT(MANY(symbols), MANY(gaps), ONE(rules), ONE_WRITTEN(soft), MANY_WRITTEN(room), ONE_WRITTEN(taken), ONE_WRITTEN(count));
    return proved_rds_push_soft(ROW(symbols), ROW(gaps), rules, margin, soft, ROW(room), taken, count);
}

uint8_t rds_push_soft_with(const int8_t *symbols, size_t symbols_len, const rds_gap_t *gaps, size_t gaps_len, const rds_rules_t *rules,
                           uint8_t margin, rds_soft_t *soft, rds_item_t *room, size_t room_len, uint64_t *taken, uint64_t *count,
                           uint8_t *scratch, size_t scratch_len)
{
    LOOK_AT(MANY(symbols), MANY(gaps), ONE(rules), ONE_WRITTEN(soft), MANY_WRITTEN(room), ONE_WRITTEN(taken), ONE_WRITTEN(count),
            MANY_WRITTEN(scratch));
    const struct scratch before = lend(scratch, scratch_len);
    const uint8_t number = proved_rds_push_soft(ROW(symbols), ROW(gaps), rules, margin, soft, ROW(room), taken, count);
    heap_scratch = before;
    return number;
}

PROVED(rds_finish);
uint8_t rds_finish(const rds_gap_t *gaps, size_t gaps_len, const rds_rules_t *rules, const rds_stream_t *stream, rds_item_t *room,
                   size_t room_len, uint64_t *count, rds_totals_t *totals)
{
    LOOK_AT(MANY(gaps), ONE(rules), ONE(stream), MANY_WRITTEN(room), ONE_WRITTEN(count), ONE_WRITTEN(totals));
    return proved_rds_finish(ROW(gaps), rules, stream, ROW(room), count, totals);
}

PROVED(rds_finish_with);
uint8_t rds_finish_with(const uint8_t *bytes, size_t bytes_len, uint64_t bits, const rds_gap_t *gaps, size_t gaps_len,
                        const rds_rules_t *rules, const rds_stream_t *stream, rds_item_t *room, size_t room_len, uint64_t *count,
                        rds_totals_t *totals)
{
    LOOK_AT(MANY(bytes), MANY(gaps), ONE(rules), ONE(stream), MANY_WRITTEN(room), ONE_WRITTEN(count), ONE_WRITTEN(totals));
    return proved_rds_finish_with(ROW(bytes), bits, ROW(gaps), rules, stream, ROW(room), count, totals);
}

/* The cause of an error, if it is RDS_UNLAWFUL_STATE and its cause has a name. */
static uint8_t cause_of(uint8_t number, const rds_rules_t *rules, const rds_stream_t *stream)
{
    if (number != RDS_UNLAWFUL_STATE)
        return number;
    if (stream->magic != RDS_STREAM_MAGIC)
        return RDS_NOT_A_STREAM;
    if (stream->version != RDS_STREAM_VERSION)
        return RDS_OTHER_VERSION;
    const rds_rules_t *their = &stream->rules;
    if (their->burst != rules->burst || their->reach != rules->reach || their->loss != rules->loss || their->of != rules->of)
        return RDS_OTHER_RULES;
    return number;
}

PROVED(rds_check);
uint8_t rds_check(const rds_gap_t *gaps, size_t gaps_len, const rds_rules_t *rules, const rds_stream_t *stream)
{
    LOOK_AT(MANY(gaps), ONE(rules), ONE(stream));
    return cause_of(proved_rds_check(ROW(gaps), rules, stream), rules, stream);
}

PROVED(rds_remainder);
uint8_t rds_remainder(uint32_t word, uint16_t *found)
{
    LOOK_AT(ONE_WRITTEN(found));
    return proved_rds_remainder(word, found);
}

PROVED(rds_correct);
uint8_t rds_correct(uint32_t word, uint8_t offset, uint8_t limit, rds_block_t *found)
{
    LOOK_AT(ONE_WRITTEN(found));
    return proved_rds_correct(word, offset, limit, found);
}

PROVED(rds_encode);
uint8_t rds_encode(const rds_words_t *groups, size_t groups_len, rds_packed_t *room, size_t room_len)
{
    LOOK_AT(MANY(groups), MANY_WRITTEN(room));
    return proved_rds_encode(ROW(groups), ROW(room));
}

/* The names are those that the proved rds_refusal_name writes: tests/test_library.py compares them. */
static const struct refusal {
    uint8_t number;
    const char *name, *reason;
} refusals[] = {
    {0, "Success", "no error"},
    {RDS_BURST_RANGE, "BurstRange", "the burst limit is above 5"},
    {RDS_REACH_RANGE, "ReachRange", "the reach is not 1 to 8"},
    {RDS_LOSS_RANGE, "LossRange", "the loss is not 1 to 64"},
    {RDS_BITS_PAST_BYTES, "BitsPastBytes", "more bits than the bytes hold"},
    {RDS_TOO_LONG, "TooLong", "more than 2^36 bits"},
    {RDS_OUT_OF_MEMORY, "OutOfMemory", "out of memory"},
    {RDS_SHARE_RANGE, "ShareRange", "the share is not 1 to 64 bad blocks of as many or more, up to 64"},
    {RDS_BAD_GAPS, "BadGaps", "gaps that are empty, out of order or past the bits"},
    {RDS_SMALL_ROOM, "SmallRoom", "too little room for the items"},
    {RDS_UNLAWFUL_STATE, "UnlawfulState", "a state that no call left"},
    {RDS_PLACE_RANGE, "PlaceRange", "places that are no range of the recording"},
    {RDS_BLOCK_RANGE, "BlockRange", "a word of more than 26 bits"},
    {RDS_OFFSET_RANGE, "OffsetRange", "a number that is none of an offset"},
    {RDS_NO_REFUSAL, "NoRefusal", "a number that is none of a refusal"},
    {RDS_BAD_POINTER, "BadPointer", "a pointer that is not as required"},
    {RDS_RESERVED_FIELD, "ReservedField", "a reserved field that is not 0"},
    {RDS_NOT_A_STREAM, "NotAStream", "a stream that was not zeroed, or is in another byte order"},
    {RDS_OTHER_VERSION, "OtherVersion", "a stream of another version"},
    {RDS_OTHER_RULES, "OtherRules", "a stream that is decoded by other rules"},
    {RDS_MARGIN_RANGE, "MarginRange", "the margin is not 1 to 127"},
};

static const char unknown[] = "unknown";
static const struct refusal no_refusal = {0, unknown, unknown};

static const struct refusal *refusal_of(uint8_t number)
{
    for (size_t k = 0; k < sizeof refusals / sizeof *refusals; k++)
        if (refusals[k].number == number)
            return &refusals[k];
    return &no_refusal;
}

const char *rds_refusal_text(uint8_t number)
{
    return refusal_of(number)->name;
}

const char *rds_refusal_reason(uint8_t number)
{
    return refusal_of(number)->reason;
}

/* Whether only this page has the error. */
static bool is_of_c(uint8_t number)
{
    return number == RDS_BAD_POINTER || (number >= RDS_NOT_A_STREAM && number <= RDS_OTHER_RULES);
}

static uint8_t write_name(const char *name, uint8_t *room, size_t room_len)
{
    const size_t len = strlen(name) + 1;
    if (room_len < len)
        return RDS_SMALL_ROOM;
    memcpy(room, name, len);
    return 0;
}

PROVED(rds_refusal_name);
uint8_t rds_refusal_name(uint8_t number, uint8_t *room, size_t room_len)
{
    LOOK_AT(MANY_WRITTEN(room));
    return is_of_c(number) ? write_name(refusal_of(number)->name, room, room_len) : proved_rds_refusal_name(number, ROW(room));
}

const char *rds_offset_text(uint8_t offset)
{
    switch (offset) {
    case RDS_A: return "A";
    case RDS_B: return "B";
    case RDS_C: return "C";
    case RDS_CX: return "Cx";
    case RDS_D: return "D";
    case RDS_C_OR_CX: return "C or Cx";
    default: return unknown;
    }
}

const char *rds_version_text(void)
{
    return "0.2.0";
}

PROVED(rds_version);
uint32_t rds_version(void)
{
    return proved_rds_version();
}
