/* Makes calls of the library as tests/library/calls.py asks, one after another: each request on standard input gives an answer on standard
 * output, both as the structs below.
 *
 * Whatever a call may write is filled with a pattern first. With REFUSING, the allocation after the first `allowed` ones of a call is
 * refused, and the later ones too if `refuses_on`. The answer says how many were refused, how many were not given back, the most bytes
 * at a time, and the bytes of stack. A scratch is just as large as rds.h says, or half of it, at any address, between bytes of the pattern. */
#include "rds.h"

#include <malloc.h>
#include <stdio.h>
#include <stdlib.h>
#include <string.h>
#include <ucontext.h>

enum call { TOTALS, ITEMS, RUN, FINISH_RUN, PUSH, PUSH_WITH, FINISH, FINISH_WITH, REMAINDER, CORRECT, ENCODE, NAME, NUMBERS, CHECK };
enum { MOST_BYTES = 1 << 20, MOST_GAPS = 1 << 10, MOST_ITEMS = 1 << 14, PATTERN = 0x5A };
/* What rds.h says of each gap near the bytes of a push with scratch, and the stack that a call is given. */
enum { A_GAP = 64, AROUND = 64, STACK = 1 << 18 };

struct request {
    uint64_t call, bytes_len, bits, gaps_len, from, to, room_len;
    int64_t allowed; /* no limit below 0 */
    uint64_t refuses_on;
    rds_rules_t rules;
    union {
        rds_state_t state;
        rds_stream_t stream;
    } known;
};

struct answer {
    uint64_t refusal, taken, count;
    int64_t refused, kept, most, stack; /* `most` bytes at a time */
    uint64_t is_room_left; /* whether nothing was written to the room but `count` items, or nothing after an error; nor around a scratch */
    unsigned char known[sizeof(rds_stream_t)];
    union {
        rds_totals_t totals;
        rds_block_t block;
        uint16_t remainder;
        uint32_t numbers[8];
        uint8_t name[RDS_NAME_ROOM];
    } found;
};

static struct request asked;
static struct answer answer;
static uint8_t bytes[MOST_BYTES];
static rds_gap_t gaps[MOST_GAPS];
static union {
    rds_item_t items[MOST_ITEMS + 1];
    rds_packed_t packed[1];
} room;
static uint8_t scratch[MOST_BYTES];
static size_t scratch_len;

#ifdef REFUSING
extern void *__libc_malloc(size_t);
extern void *__libc_realloc(void *, size_t);
extern void __libc_free(void *);
static int64_t allowed = -1;
static int is_calling;

static int64_t used;

static int is_refused(void)
{
    if (allowed) {
        allowed -= allowed > 0;
        return 0;
    }
    answer.refused++;
    allowed = asked.refuses_on ? 0 : -1;
    return 1;
}

/* Counts memory that a call was given, or gave back if `sign` is -1. */
static void *count(void *at, int sign)
{
    if (is_calling && at) {
        answer.kept += sign;
        used += sign * (int64_t)malloc_usable_size(at);
        answer.most = used > answer.most ? used : answer.most;
    }
    return at;
}

void *malloc(size_t len) { return is_refused() ? NULL : count(__libc_malloc(len), 1); }

void *realloc(void *old, size_t len)
{
    if (is_refused())
        return NULL;
    count(old, -1);
    void *at = __libc_realloc(old, len);
    return count(at ? at : old, 1) == at ? at : NULL;
}

void free(void *at) { __libc_free(count(at, -1)); }
#else
static int64_t allowed;
static int is_calling;
#endif

static uint64_t word_at(const unsigned char *at)
{
    uint64_t word;
    memcpy(&word, at, sizeof word);
    return word;
}

/* The first byte that is not the pattern, or the end: eight bytes at a time, since emulators are slow. */
static const unsigned char *pattern_end(const unsigned char *at, const unsigned char *end)
{
    while (end - at >= 8 && word_at(at) == UINT64_MAX / 255 * PATTERN)
        at += 8;
    while (at < end && *at == PATTERN)
        at++;
    return at;
}

static int is_pattern(const unsigned char *at, const unsigned char *end) { return pattern_end(at, end) == end; }

#define RECORDING bytes, asked.bytes_len, asked.bits, gaps, asked.gaps_len, &asked.rules
#define STREAM gaps, asked.gaps_len, &asked.rules, &asked.known.stream
#define ROOM room.items, asked.room_len
#define COUNT &answer.count
/* Of a push with scratch `from` are the gaps near its bytes, `to` is the scratch's address, and `bits` are its halves. */
#define SCRATCH (scratch_len ? scratch + AROUND + asked.to : NULL), scratch_len

static uint8_t called(void)
{
    static const rds_rules_t usual = RDS_RULES;
    switch ((enum call)asked.call) {
    case TOTALS: return rds_totals(RECORDING, &answer.found.totals);
    case ITEMS: return rds_items(RECORDING, ROOM, COUNT);
    case RUN: return rds_run(RECORDING, asked.from, asked.to, &asked.known.state, ROOM, COUNT);
    case FINISH_RUN: return rds_finish_run(RECORDING, &asked.known.state, ROOM, COUNT);
    case PUSH: return rds_push(bytes, asked.bytes_len, STREAM, ROOM, &answer.taken, COUNT);
#ifndef OF_0_2
    case PUSH_WITH: return rds_push_with(bytes, asked.bytes_len, STREAM, ROOM, &answer.taken, COUNT, SCRATCH);
    case CHECK: return rds_check(STREAM);
#endif
    case FINISH: return rds_finish(STREAM, ROOM, COUNT, &answer.found.totals);
    case FINISH_WITH: return rds_finish_with(bytes, asked.bytes_len, asked.bits, STREAM, ROOM, COUNT, &answer.found.totals);
    case REMAINDER: return rds_remainder((uint32_t)asked.from, &answer.found.remainder);
    case CORRECT: return rds_correct((uint32_t)asked.from, (uint8_t)asked.to, (uint8_t)asked.bits, &answer.found.block);
    case ENCODE: return rds_encode((const rds_words_t *)bytes, asked.bytes_len / sizeof(rds_words_t), room.packed, asked.room_len);
    case NAME: return rds_refusal_name((uint8_t)asked.from, answer.found.name, asked.room_len);
    case NUMBERS:
        answer.found.numbers[0] = rds_version();
        memcpy(answer.found.numbers + 1, &usual, 4 * sizeof(uint32_t));
        return 0;
    default: exit(3);
    }
}

#ifdef REFUSING
static ucontext_t caller, callee;
static unsigned char stack[STACK];

static void call_there(void)
{
    if (is_calling)
        answer.refusal = called();
}

/* The bytes of stack that a call takes, by the pattern that it leaves. */
static int64_t stack_of_call(void)
{
    size_t left;
    getcontext(&callee);
    callee.uc_stack.ss_sp = stack;
    callee.uc_stack.ss_size = sizeof stack;
    callee.uc_link = &caller;
    makecontext(&callee, call_there, 0);
    swapcontext(&caller, &callee);
    left = (size_t)(pattern_end(stack, stack + sizeof stack) - stack);
    memset(stack + left, PATTERN, sizeof stack - left);
    return (int64_t)(sizeof stack - left);
}
#else
static int64_t stack_of_call(void)
{
    if (is_calling)
        answer.refusal = called();
    return 0;
}
#endif

/* How many bytes of the room a call wrote. */
static size_t written(void)
{
    if (answer.refusal)
        return 0;
    if (asked.call == ENCODE)
        return asked.bytes_len / sizeof(rds_words_t) * sizeof(rds_packed_t);
    return asked.call >= ITEMS && asked.call <= FINISH_WITH ? answer.count * sizeof(rds_item_t) : 0;
}

static void set_scratch(void)
{
#ifndef OF_0_2
    scratch_len = (RDS_PUSH_SCRATCH(asked.bytes_len, asked.room_len) + A_GAP * asked.from) * asked.bits / 2;
#endif
    if (asked.call != PUSH_WITH || scratch_len + AROUND + asked.to + AROUND > sizeof scratch)
        exit(4);
    memset(scratch, PATTERN, AROUND + asked.to);
    memset(scratch + AROUND + asked.to + scratch_len, PATTERN, AROUND);
}

static int is_scratch_left(void)
{
    const unsigned char *first = scratch + AROUND + asked.to, *end = first + scratch_len;
    return is_pattern(scratch, first) && is_pattern(end, end + AROUND);
}

/* Fills what calls may write; after each call only what it wrote is filled again. */
static void paint(void)
{
    memset(&room, PATTERN, sizeof room);
#ifdef REFUSING
    memset(stack, PATTERN, sizeof stack);
#endif
}

int main(void)
{
    paint();
    const int64_t no_stack = stack_of_call();
    while (fread(&asked, sizeof asked, 1, stdin)) {
        const unsigned char *first = (const unsigned char *)&room, *end = (const unsigned char *)(room.items + asked.room_len + 1);
        if (asked.bytes_len > MOST_BYTES || asked.gaps_len > MOST_GAPS || asked.room_len > MOST_ITEMS ||
            fread(bytes, 1, asked.bytes_len, stdin) < asked.bytes_len || fread(gaps, sizeof *gaps, asked.gaps_len, stdin) < asked.gaps_len)
            return 2;
        memset(&answer, PATTERN, sizeof answer);
        answer.refused = answer.kept = answer.most = 0;
        if (asked.call == PUSH_WITH)
            set_scratch();
        allowed = asked.allowed;
        is_calling = 1;
        answer.stack = stack_of_call() - no_stack;
        is_calling = 0;
        allowed = -1;
        memcpy(answer.known, &asked.known, sizeof answer.known);
        answer.is_room_left = (uint64_t)(is_pattern(first + written(), end) && (asked.call != PUSH_WITH || is_scratch_left()));
        fwrite(&answer, sizeof answer, 1, stdout);
        fwrite(&room, 1, written(), stdout);
        memset(&room, PATTERN, answer.is_room_left ? written() : sizeof room);
    }
    return 0;
}
