/* librds: the decoder of Radio Data System bits, for C and C++.
 *
 * Bits are packed into bytes, most significant bit first. A place is the position of a bit, from 0. The decoder finds items, in order of
 * completion: acquisitions of block sync, groups of four blocks, and losses of block sync. There are at most two items per bit.
 *
 *     #include <rds.h>
 *     #include <stdio.h>
 *     int main(void)
 *     {
 *         static const rds_rules_t rules = RDS_RULES;
 *         static rds_stream_t stream; // zeros: nothing was heard yet
 *         rds_item_t items[16];       // room for 16 is always enough
 *         rds_totals_t totals;
 *         uint8_t bytes[4096];
 *         uint64_t taken, count;
 *         size_t len;
 *         while ((len = fread(bytes, 1, sizeof bytes, stdin)) > 0)
 *             for (size_t at = 0; at < len; at += taken) {
 *                 if (rds_push(bytes + at, len - at, NULL, 0, &rules, &stream, items, 16, &taken, &count)) return 1;
 *                 // items[0] to items[count - 1] are complete: no later bit changes them
 *             }
 *         if (rds_finish(NULL, 0, &rules, &stream, items, 1, &count, &totals)) return 1;
 *         printf("%d valid, %d groups\n", (int)totals.valid, (int)totals.groups);
 *     }
 *
 * Of every function:
 *
 * Errors. A function that returns uint8_t returns 0, or the number of an error. rds_refusal_text and rds_refusal_reason put it into words.
 * On error, arguments are unchanged, except count on RDS_SMALL_ROOM. If several errors apply, the first in the function's list is
 * returned. RDS_OUT_OF_MEMORY can occur at any point.
 *
 * Pointers, by their declaration:
 *   const T *p        to one T, aligned, that no other thread writes during the call; it is only read
 *   T *p              to one T of the caller's, aligned, that nobody else reads or writes during the call
 *   p, p_len          the same of p_len values in a row; if p_len is 0, p may be any pointer, NULL too
 * RDS_BAD_POINTER comes before all other errors. Its causes are: a pointer that is NULL and must not be, a misaligned pointer, more values
 * than memory may hold, and written values that overlap others. C cannot check the rest: the memory must exist, and no other thread may
 * write it during the call.
 *
 * Threads. Nothing is kept after a call: no handle, no thread, no lock, no global state, nothing to free. Calls may run at the same time
 * if none writes what another uses. So several threads may call rds_finish for one stream, but not while one pushes to it.
 *
 * Stack and memory. A call takes at most 8192 bytes of stack. Only rds_totals, rds_items, rds_run, rds_finish_run, rds_push,
 * rds_push_soft, rds_finish, rds_finish_with, rds_check and rds_correct call malloc, and they free what they took before they return.
 * rds_totals and rds_items copy the recording, and take up to 1.2 bytes per byte of it. rds_push and rds_push_soft take at most 1 MB, and
 * less if there is less room: use rds_push for any long recording. rds_push_with and rds_push_soft_with take their memory from the caller
 * instead.
 *
 * Time. A call takes time for the bits that it decodes and for the gaps that it is given, whatever the length of the recording or stream.
 *
 * Parameters that several functions share:
 *   bytes, bytes_len  the recording, or the next bytes of a stream
 *   bits              the recording is the first bits bits of the bytes
 *   gaps, gaps_len    the gaps, in order; two may touch, and none is empty, overlaps another or goes past the end (of a stream: 2^36 bits)
 *   rules             the decoder's rules
 *   room, room_len    receives the items from its beginning on, if they fit
 *   count             receives the number of items, also on RDS_SMALL_ROOM
 *
 * The results are proved of the library's code: docs/PROOFS.md lists the proofs, and the parts that are only trusted.
 */
#ifndef RDS_H
#define RDS_H

#include <stddef.h>
#include <stdint.h>

#ifdef __cplusplus
extern "C" {
#endif

/* Compilers that know it warn if the result of such a function is not used. */
#if defined(__GNUC__)
#define RDS_MUST_USE __attribute__((warn_unused_result))
#else
#define RDS_MUST_USE
#endif

/* Errors: the program's, by its numbers, and the library's own from 64 on. No number ever changes its meaning. */
enum {
    RDS_BURST_RANGE = 1,      /* burst is above 5 */
    RDS_REACH_RANGE = 2,      /* reach is not 1 to 8 */
    RDS_LOSS_RANGE = 3,       /* loss is not 1 to 64 */
    RDS_BITS_PAST_BYTES = 4,  /* more bits than the bytes hold */
    RDS_TOO_LONG = 5,         /* more than 2^36 bits */
    RDS_OUT_OF_MEMORY = 8,    /* memory was refused */
    RDS_SHARE_RANGE = 15,     /* loss is 0 or above of, or of above 64 */
    RDS_BAD_GAPS = 16,        /* a gap without a place, past the bits, or that begins before the end of the one before it */
    RDS_SMALL_ROOM = 64,      /* more than there is room for */
    RDS_UNLAWFUL_STATE = 65,  /* a state or a stream that no call can have left */
    RDS_PLACE_RANGE = 66,     /* from and to are no range of the recording */
    RDS_BLOCK_RANGE = 67,     /* a word of more than 26 bits */
    RDS_OFFSET_RANGE = 68,    /* an offset that is none of RDS_A to RDS_C_OR_CX */
    RDS_NO_REFUSAL = 69,      /* no refusal has this number */
    RDS_BAD_POINTER = 70,     /* a pointer that does not meet its requirement */
    RDS_RESERVED_FIELD = 71,  /* a reserved field of the rules is not 0 */
    /* The causes of RDS_UNLAWFUL_STATE that rds_check names. */
    RDS_NOT_A_STREAM = 72,    /* a stream that was not zeroed before its first call, or is in another byte order */
    RDS_OTHER_VERSION = 73,   /* a stream of another RDS_STREAM_VERSION */
    RDS_OTHER_RULES = 74,     /* a stream that is decoded by other rules */
    RDS_MARGIN_RANGE = 75     /* margin is not 1 to 127 */
};

/* The twelve totals of a report: 128 bytes. */
typedef struct rds_totals_t {
    uint64_t valid;     /* valid blocks */
    uint64_t bursts[5]; /* corrected blocks, by the span of their burst: 1 to 5 bits */
    uint64_t lost;      /* blocks that were read and are neither valid nor corrected */
    uint64_t bits;      /* bits corrected */
    uint64_t groups;    /* groups */
    uint64_t complete;  /* groups of which all four blocks are valid or corrected */
    uint64_t acquired;  /* acquisitions */
    uint64_t losses;    /* losses */
    uint64_t reserved[4]; /* always 0 */
} rds_totals_t;

/* A block: 8 bytes, all 0 if it was not read. */
typedef struct rds_block_t {
    uint32_t burst; /* the error mask: the ones of a word of 26 bits were corrected; or 0 */
    uint16_t info;  /* the information word, corrected, or 0 */
    uint8_t kind;   /* RDS_MISSING, RDS_LOST, RDS_VALID or RDS_CORRECTED */
    uint8_t offset; /* 0 none, or RDS_A, RDS_B, RDS_C, RDS_CX or RDS_D */
} rds_block_t;

enum { RDS_MISSING = 0, RDS_LOST = 1, RDS_VALID = 2, RDS_CORRECTED = 3 };
enum { RDS_A = 1, RDS_B = 2, RDS_C = 3, RDS_CX = 4, RDS_D = 5, RDS_C_OR_CX = 6 };

/* An item of a report: 48 bytes. */
typedef struct rds_item_t {
    uint64_t place;        /* of the last bit of the block that acquired or lost, or of the first bit of a group that was read */
    rds_block_t blocks[4]; /* of a group, or all missing */
    uint8_t what;          /* RDS_ACQUIRED, RDS_GROUP or RDS_LOSS */
    uint8_t number;        /* of an acquisition its block, 1 to 4; of a group its type, 0 to 15, or 255 if unknown */
    uint8_t version;       /* of a group RDS_VERSION_A, RDS_VERSION_B or RDS_VERSION_UNKNOWN; else 0 */
    uint8_t conflict;      /* 1 for a group whose blocks 2 and 3 name different versions */
    uint32_t unused;       /* always 0 */
} rds_item_t;

enum { RDS_ACQUIRED = 1, RDS_GROUP = 2, RDS_LOSS = 3 };
enum { RDS_VERSION_A = 1, RDS_VERSION_B = 2, RDS_VERSION_UNKNOWN = 3 };

/* A gap in a recording, whose bits mean nothing: the places from begin to before end. 16 bytes. */
typedef struct rds_gap_t {
    uint64_t begin;
    uint64_t end;
} rds_gap_t;

/* The numbers of a decoder's rules: 32 bytes. */
typedef struct rds_rules_t {
    uint32_t burst; /* the longest burst that is corrected, in bits: 0 to 5 */
    uint32_t reach; /* sync needs two valid blocks that fit each other, at most this number of blocks apart: 1 to 8 */
    uint32_t loss;  /* how many bad blocks lose sync: 1 to 64 */
    uint32_t of;    /* 0 if these are bad blocks in a row; else among how many of the last blocks: loss to 64 */
    uint32_t reserved[4]; /* has to be 0 */
} rds_rules_t;

/* The program's default rules. */
#define RDS_RULES {2, 3, 10, 0, {0}}

/* The state of a run between two bits: 40 bytes, all 0 without sync, as before the first bit. It may be copied, stored, and continued
 * elsewhere by the same rules. Equal states are equal bytes. With sync it names the rule of loss that counted its bad blocks; another
 * rule is the error RDS_UNLAWFUL_STATE. */
typedef struct rds_state_t {
    uint64_t due;    /* where the next block ends */
    uint64_t bad;    /* how many blocks in a row were bad; or, by a share, a mask of the bad ones, the newest lowest */
    uint32_t number; /* the number of the next block, 1 to 4, or 0 without sync */
    uint32_t first;  /* the number of the first block that was read in the group in progress */
    uint32_t loss;   /* the rule of loss of a lock, as rules have it, or 0 */
    uint32_t of;     /* the same */
    uint64_t reserved; /* always 0 */
} rds_state_t;

/* The state of a stream between two chunks: 256 bytes, all 0 before the first call. It may be copied, stored, and continued elsewhere by
 * the same rules and gaps. However a stream was cut, by the same rules and gaps the calls leave the same 256 bytes, so they can be
 * compared and hashed. They name their version and rules, in the processor's byte order; a difference in these is the error
 * RDS_UNLAWFUL_STATE. */
typedef struct rds_stream_t {
    uint32_t magic;      /* RDS_STREAM_MAGIC */
    uint32_t version;    /* RDS_STREAM_VERSION */
    rds_rules_t rules;   /* by which the stream is decoded */
    uint64_t place;      /* the number of bits heard, which is the place of the next */
    rds_state_t state;   /* the state after them */
    rds_totals_t totals; /* of the items that are complete */
    uint8_t tail[32];    /* the last 30 bytes that were heard, or all, then zeros */
    uint64_t reserved;   /* always 0 */
} rds_stream_t;

enum { RDS_STREAM_MAGIC = 0x31534452, RDS_STREAM_VERSION = 1 };

/* The state of a stream of symbols between two chunks: 496 bytes, all 0 before the first call. It may be copied, stored, and continued
 * like a stream. */
typedef struct rds_soft_t {
    rds_stream_t stream; /* the stream of the symbols' bits */
    int8_t symbols[240]; /* the last symbols taken, after zeros if there are fewer */
} rds_soft_t;

/* The usual margin: two nats, in units of 1/16 nat. */
#define RDS_MARGIN 32

/* The information words of a group's four blocks: 8 bytes. */
typedef struct rds_words_t {
    uint16_t words[4];
} rds_words_t;

/* The 104 bits of a group as it is sent, the first bit highest: 13 bytes, so that groups in a row are a recording. */
typedef struct rds_packed_t {
    uint8_t bytes[13];
} rds_packed_t;

/* Enough bytes for the name of any error and its final NUL. */
#define RDS_NAME_ROOM 16

/* The totals of a recording.
 *   found             receives the totals
 * Errors, in this order: RDS_RESERVED_FIELD, RDS_BURST_RANGE, RDS_REACH_RANGE, RDS_LOSS_RANGE, RDS_SHARE_RANGE, RDS_TOO_LONG,
 * RDS_BITS_PAST_BYTES, RDS_BAD_GAPS, RDS_OUT_OF_MEMORY. */
RDS_MUST_USE
uint8_t rds_totals(const uint8_t *bytes, size_t bytes_len, uint64_t bits, const rds_gap_t *gaps, size_t gaps_len,
                               const rds_rules_t *rules, rds_totals_t *found);

/* The items of a recording. If they do not fit, only count is written. So a call without room asks for the number, and takes as long as a
 * second one.
 * Errors: those of rds_totals, then RDS_SMALL_ROOM. */
RDS_MUST_USE
uint8_t rds_items(const uint8_t *bytes, size_t bytes_len, uint64_t bits, const rds_gap_t *gaps, size_t gaps_len,
                              const rds_rules_t *rules, rds_item_t *room, size_t room_len, uint64_t *count);

/* The items of a range of a recording: a list of any length through a small room. Each run continues from the state that the run before
 * it left, the first from a state of zeros at place 0. Then rds_finish_run gives the last group, and all together are the items of
 * rds_items. If the items do not fit, only count is written.
 *   from, to          the range: the places from from to before to
 *   state             the state at from; receives the state at to
 * A run hears up to 233 bits before from. The call copies the bytes and gaps of the range and of the 233 bits before it, and its cost
 * depends on these and not on the length of the recording.
 * Errors: those of rds_totals, then RDS_PLACE_RANGE, RDS_UNLAWFUL_STATE, RDS_SMALL_ROOM. */
RDS_MUST_USE
uint8_t rds_run(const uint8_t *bytes, size_t bytes_len, uint64_t bits, const rds_gap_t *gaps, size_t gaps_len,
                            const rds_rules_t *rules, uint64_t from, uint64_t to, rds_state_t *state, rds_item_t *room,
                            size_t room_len, uint64_t *count);

/* The group in progress at the end of a recording, as far as it was read.
 *   state             the state that a run up to the end left
 *   count             receives whether there is one, 1 or 0
 * Errors: those of rds_run. */
RDS_MUST_USE
uint8_t rds_finish_run(const uint8_t *bytes, size_t bytes_len, uint64_t bits, const rds_gap_t *gaps, size_t gaps_len,
                                   const rds_rules_t *rules, const rds_state_t *state, rds_item_t *room, size_t room_len,
                                   uint64_t *count);

/* Takes the next bytes of a stream, as many as there is room for, and writes the items that they complete. Offer the other bytes again. It
 * stops only if the items of one more byte do not fit. A byte completes at most 16 items: room for 16 is never too little, and count is at
 * most 16 times taken. From a stream of zeros on, however it is cut, the items are those of rds_items over all bytes so far, except the
 * group in progress, which rds_finish gives. No later byte changes them. With room for 16 items per byte a push is fastest.
 *   bytes, bytes_len  any number of bytes, none too
 *   gaps, gaps_len    by their places in the stream; they may be later than all bytes
 *   stream            the state of the stream, zeros at its start; receives the state after the bytes taken
 *   taken             receives the number of bytes taken
 * A state that no call can have left is the error RDS_UNLAWFUL_STATE, such as one with a byte after the tail that is not zero. Any other is
 * continued, whoever wrote it. The call takes memory for the tables of the rules, the gaps near the bytes, and as many items as there is
 * room for, or as 960 bytes may complete. RDS_TOO_LONG means that the stream would go past 2^36 bits with all offered bytes.
 * RDS_SMALL_ROOM means that the items of the first byte do not fit.
 * Errors, in this order: RDS_RESERVED_FIELD, RDS_BURST_RANGE, RDS_REACH_RANGE, RDS_LOSS_RANGE, RDS_SHARE_RANGE, RDS_BAD_GAPS,
 * RDS_UNLAWFUL_STATE, RDS_TOO_LONG, RDS_SMALL_ROOM, RDS_OUT_OF_MEMORY. */
RDS_MUST_USE
uint8_t rds_push(const uint8_t *bytes, size_t bytes_len, const rds_gap_t *gaps, size_t gaps_len, const rds_rules_t *rules,
                             rds_stream_t *stream, rds_item_t *room, size_t room_len, uint64_t *taken, uint64_t *count);

/* Enough bytes of scratch for rds_push_with, without gaps: 9088 for tables and bytes, and 56 per item that is found at once. */
#define RDS_PUSH_SCRATCH(len, room)                                                                                                    \
    (9088 + ((size_t)(len) < 960 && 16 * (size_t)(len) < (size_t)(room) ? 896 * (size_t)(len)                                          \
             : (size_t)(room) < 15360                                   ? 56 * (size_t)(room)                                          \
                                                                        : (size_t)860160))

/* rds_push without malloc, for real-time threads: the call takes its memory from the caller's scratch. Apart from that it is rds_push.
 *   scratch, scratch_len  bytes that the call may overwrite, also on error; it does not keep them
 * RDS_PUSH_SCRATCH(bytes_len, room_len) bytes are enough without gaps. Each gap that touches the bytes, or the 240 bits before them, takes
 * up to 64 bytes more. With too few, or none, the error is RDS_OUT_OF_MEMORY. Threads may call it at the same time, each with its own
 * scratch.
 * Errors: those of rds_push. */
RDS_MUST_USE
uint8_t rds_push_with(const uint8_t *bytes, size_t bytes_len, const rds_gap_t *gaps, size_t gaps_len, const rds_rules_t *rules,
                      rds_stream_t *stream, rds_item_t *room, size_t room_len, uint64_t *taken, uint64_t *count, uint8_t *scratch,
                      size_t scratch_len);

/* rds_push for symbols in place of bits: soft decisions. A symbol is a signed byte: its sign tells the bits beside it, its size how sure it
 * is, a log-likelihood ratio in units of 1/16 nat. Bit i is that between symbols i and i + 1. The items are those of the bits, and each group
 * is read again from its symbols: burst of a corrected block is any mask, not only a burst. The bits alone acquire and lose sync.
 *   symbols, symbols_len  the next symbols, the first of which is the one after those taken before
 *   margin                how much more than the flips that are corrected any others must weigh, 1 to 127: RDS_MARGIN
 *   soft                  the state of the stream, zeros at its start; receives the state after the symbols taken
 *   taken                 receives the number of symbols taken, eight per byte of bits
 * Offer the other symbols again: the last one at least, since only its sign was needed. The call takes as many bytes of bits as there are,
 * or as room_len / 16, but at least one, and at most 960. From a stream of zeros on, however it is cut, the items are those of the whole:
 * no later symbol changes them. rds_finish gives the group in progress of soft->stream, by its bits.
 * Errors: RDS_MARGIN_RANGE, then those of rds_push, for the symbols that would be taken. */
RDS_MUST_USE
uint8_t rds_push_soft(const int8_t *symbols, size_t symbols_len, const rds_gap_t *gaps, size_t gaps_len, const rds_rules_t *rules,
                      uint8_t margin, rds_soft_t *soft, rds_item_t *room, size_t room_len, uint64_t *taken, uint64_t *count);

/* Enough bytes of scratch for rds_push_soft_with, without gaps. */
#define RDS_SOFT_SCRATCH(room) (40960 + 58 * ((size_t)(room) < 16 ? (size_t)16 : (size_t)(room) < 15360 ? (size_t)(room) : (size_t)15360))

/* rds_push_soft without malloc, as rds_push_with is to rds_push.
 *   scratch, scratch_len  bytes that the call may overwrite, also on error: RDS_SOFT_SCRATCH(room_len), and 64 per gap near the symbols
 * Errors: those of rds_push_soft. */
RDS_MUST_USE
uint8_t rds_push_soft_with(const int8_t *symbols, size_t symbols_len, const rds_gap_t *gaps, size_t gaps_len, const rds_rules_t *rules,
                           uint8_t margin, rds_soft_t *soft, rds_item_t *room, size_t room_len, uint64_t *taken, uint64_t *count,
                           uint8_t *scratch, size_t scratch_len);

/* The end of a stream: the group in progress, as far as it was read, and the totals. The stream is only read, and can continue.
 *   stream            the state of the stream
 *   count             receives whether there is one, 1 or 0
 *   totals            receives the totals of everything heard, with that group
 * Errors: those of rds_push, except RDS_TOO_LONG. */
RDS_MUST_USE
uint8_t rds_finish(const rds_gap_t *gaps, size_t gaps_len, const rds_rules_t *rules, const rds_stream_t *stream,
                               rds_item_t *room, size_t room_len, uint64_t *count, rds_totals_t *totals);

/* The end of a stream whose last bytes were not pushed, inside a byte too: the items that the first bits bits of these bytes complete, then
 * the group in progress, and the totals. The items of all chunks and these are those of rds_items over the whole. The stream is only read,
 * and can continue.
 *   stream            the state of the stream
 *   totals            receives the totals of everything heard and of these bits
 * Errors: those of rds_push; RDS_BITS_PAST_BYTES comes after RDS_TOO_LONG. */
RDS_MUST_USE
uint8_t rds_finish_with(const uint8_t *bytes, size_t bytes_len, uint64_t bits, const rds_gap_t *gaps, size_t gaps_len,
                                    const rds_rules_t *rules, const rds_stream_t *stream, rds_item_t *room, size_t room_len,
                                    uint64_t *count, rds_totals_t *totals);

/* Whether a stream can be continued by these rules and gaps, such as one that was stored. In place of RDS_UNLAWFUL_STATE it returns the
 * cause, if that has a name: RDS_NOT_A_STREAM, RDS_OTHER_VERSION or RDS_OTHER_RULES.
 *   stream            the state of the stream
 * Errors: those of rds_finish, except RDS_SMALL_ROOM, and the causes. */
RDS_MUST_USE
uint8_t rds_check(const rds_gap_t *gaps, size_t gaps_len, const rds_rules_t *rules, const rds_stream_t *stream);

/* The remainder of a 26-bit word by the generator of the block code, below 1024.
 *   word              the word, the first bit of a block highest
 *   found             receives the remainder
 * Errors: RDS_BLOCK_RANGE. */
RDS_MUST_USE
uint8_t rds_remainder(uint32_t word, uint16_t *found);

/* A 26-bit word, read as a block.
 *   word              the word, the first bit of a block highest
 *   offset            the offset that the block should have, RDS_A to RDS_C_OR_CX
 *   limit             a burst of up to limit bits, 0 to 5, is corrected if exactly one fits
 *   found             receives the block
 * Errors, in this order: RDS_BLOCK_RANGE, RDS_OFFSET_RANGE, RDS_BURST_RANGE, RDS_OUT_OF_MEMORY. */
RDS_MUST_USE
uint8_t rds_correct(uint32_t word, uint8_t offset, uint8_t limit, rds_block_t *found);

/* Groups as they are sent.
 *   groups, groups_len  the information words of each group
 *   room, room_len      receives the bits of each group
 * Errors: RDS_SMALL_ROOM if there is room for fewer groups. */
RDS_MUST_USE
uint8_t rds_encode(const rds_words_t *groups, size_t groups_len, rds_packed_t *room, size_t room_len);

/* Texts that last as long as the program. The name of an error, such as "TooLong", and its reason, such as "more than 2^36 bits", or
 * "Success" and "no error" of 0; the name of an offset, RDS_A to RDS_C_OR_CX, as listings have it, such as "Cx" for the standard's C'; and
 * the version of the library, such as "0.2.0". Any other number gives "unknown". */
const char *rds_refusal_text(uint8_t number);
const char *rds_refusal_reason(uint8_t number);
const char *rds_offset_text(uint8_t offset);
const char *rds_version_text(void);

/* The name of an error, such as "TooLong", followed by a NUL. Print it as (const char *)room.
 *   number            the error
 *   room, room_len    receives the name; RDS_NAME_ROOM bytes are enough for any
 * Errors, in this order: RDS_NO_REFUSAL, RDS_SMALL_ROOM. */
uint8_t rds_refusal_name(uint8_t number, uint8_t *room, size_t room_len);

/* The version of this header: 65536 times the first number, 256 times the second, and the third. */
#define RDS_VERSION 0x000200

/* The version of the library, as RDS_VERSION has it. */
uint32_t rds_version(void);

#ifdef __cplusplus
}
#endif
#endif
