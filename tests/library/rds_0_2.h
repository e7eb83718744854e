/* The declarations of rds.h at version 0.2. tests/test_library.py compiles calls.c against them and runs it with the library.
 * It is not changed once 0.2 is released. */
#ifndef RDS_H
#define RDS_H

#include <stddef.h>
#include <stdint.h>

#ifdef __cplusplus
extern "C" {
#endif

#if defined(__GNUC__)
#define RDS_MUST_USE __attribute__((warn_unused_result))
#else
#define RDS_MUST_USE
#endif
enum {
    RDS_BURST_RANGE = 1, RDS_REACH_RANGE = 2, RDS_LOSS_RANGE = 3, RDS_BITS_PAST_BYTES = 4, RDS_TOO_LONG = 5,
    RDS_OUT_OF_MEMORY = 8, RDS_SHARE_RANGE = 15, RDS_BAD_GAPS = 16, RDS_SMALL_ROOM = 64, RDS_UNLAWFUL_STATE = 65,
    RDS_PLACE_RANGE = 66, RDS_BLOCK_RANGE = 67, RDS_OFFSET_RANGE = 68, RDS_NO_REFUSAL = 69, RDS_BAD_POINTER = 70,
    RDS_RESERVED_FIELD = 71
};
typedef struct rds_totals_t { uint64_t valid, bursts[5], lost, bits, groups, complete, acquired, losses, reserved[4]; } rds_totals_t;
typedef struct rds_block_t { uint32_t burst; uint16_t info; uint8_t kind, offset; } rds_block_t;
enum { RDS_MISSING = 0, RDS_LOST = 1, RDS_VALID = 2, RDS_CORRECTED = 3 };
enum { RDS_A = 1, RDS_B = 2, RDS_C = 3, RDS_CX = 4, RDS_D = 5, RDS_C_OR_CX = 6 };
typedef struct rds_item_t {
    uint64_t place; rds_block_t blocks[4]; uint8_t what, number, version, conflict; uint32_t unused;
} rds_item_t;
enum { RDS_ACQUIRED = 1, RDS_GROUP = 2, RDS_LOSS = 3 };
enum { RDS_VERSION_A = 1, RDS_VERSION_B = 2, RDS_VERSION_UNKNOWN = 3 };
typedef struct rds_gap_t { uint64_t begin, end; } rds_gap_t;
typedef struct rds_rules_t { uint32_t burst, reach, loss, of, reserved[4]; } rds_rules_t;

#define RDS_RULES {2, 3, 10, 0, {0}}
typedef struct rds_state_t { uint64_t due, bad; uint32_t number, first, loss, of; uint64_t reserved; } rds_state_t;
typedef struct rds_stream_t {
    uint32_t magic, version; rds_rules_t rules; uint64_t place; rds_state_t state; rds_totals_t totals; uint8_t tail[32]; uint64_t reserved;
} rds_stream_t;
enum { RDS_STREAM_MAGIC = 0x31534452, RDS_STREAM_VERSION = 1 };
typedef struct rds_words_t { uint16_t words[4]; } rds_words_t;
typedef struct rds_packed_t { uint8_t bytes[13]; } rds_packed_t;

#define RDS_NAME_ROOM 16
RDS_MUST_USE uint8_t rds_totals(const uint8_t *bytes, size_t bytes_len, uint64_t bits, const rds_gap_t *gaps, size_t gaps_len, const rds_rules_t
    *rules, rds_totals_t *found);
RDS_MUST_USE uint8_t rds_items(const uint8_t *bytes, size_t bytes_len, uint64_t bits, const rds_gap_t *gaps, size_t gaps_len, const rds_rules_t *rules,
    rds_item_t *room, size_t room_len, uint64_t *count);
RDS_MUST_USE uint8_t rds_run(const uint8_t *bytes, size_t bytes_len, uint64_t bits, const rds_gap_t *gaps, size_t gaps_len, const rds_rules_t *rules,
    uint64_t from, uint64_t to, rds_state_t *state, rds_item_t *room, size_t room_len, uint64_t *count);
RDS_MUST_USE uint8_t rds_finish_run(const uint8_t *bytes, size_t bytes_len, uint64_t bits, const rds_gap_t *gaps, size_t gaps_len, const rds_rules_t
    *rules, const rds_state_t *state, rds_item_t *room, size_t room_len, uint64_t *count);
RDS_MUST_USE uint8_t rds_push(const uint8_t *bytes, size_t bytes_len, const rds_gap_t *gaps, size_t gaps_len, const rds_rules_t *rules, rds_stream_t
    *stream, rds_item_t *room, size_t room_len, uint64_t *taken, uint64_t *count);
RDS_MUST_USE uint8_t rds_finish(const rds_gap_t *gaps, size_t gaps_len, const rds_rules_t *rules, const rds_stream_t *stream, rds_item_t *room, size_t
    room_len, uint64_t *count, rds_totals_t *totals);
RDS_MUST_USE uint8_t rds_finish_with(const uint8_t *bytes, size_t bytes_len, uint64_t bits, const rds_gap_t *gaps, size_t gaps_len, const rds_rules_t
    *rules, const rds_stream_t *stream, rds_item_t *room, size_t room_len, uint64_t *count, rds_totals_t *totals);
RDS_MUST_USE uint8_t rds_remainder(uint32_t word, uint16_t *found);
RDS_MUST_USE uint8_t rds_correct(uint32_t word, uint8_t offset, uint8_t limit, rds_block_t *found);
RDS_MUST_USE uint8_t rds_encode(const rds_words_t *groups, size_t groups_len, rds_packed_t *room, size_t room_len);
const char *rds_refusal_text(uint8_t number);
const char *rds_refusal_reason(uint8_t number);
const char *rds_offset_text(uint8_t offset);
const char *rds_version_text(void);
uint8_t rds_refusal_name(uint8_t number, uint8_t *room, size_t room_len);

#define RDS_VERSION 0x000200
uint32_t rds_version(void);

#ifdef __cplusplus
}
#endif
#endif
