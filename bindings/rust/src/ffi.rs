//! The declarations of `rds.h`, which says what each name means. `tests/test_header.py` compares each line with it.
#![allow(missing_docs)]

#[repr(C)]
#[derive(Clone, Copy, Debug, Default, PartialEq, Eq, Hash)]
pub struct RdsTotals {
    pub valid: u64,
    pub bursts: [u64; 5],
    pub lost: u64,
    pub bits: u64,
    pub groups: u64,
    pub complete: u64,
    pub acquired: u64,
    pub losses: u64,
    pub reserved: [u64; 4],
}

#[repr(C)]
#[derive(Clone, Copy, Debug, Default, PartialEq, Eq, Hash)]
pub struct RdsBlock {
    pub burst: u32,
    pub info: u16,
    pub kind: u8,
    pub offset: u8,
}

#[repr(C)]
#[derive(Clone, Copy, Debug, Default, PartialEq, Eq, Hash)]
pub struct RdsItem {
    pub place: u64,
    pub blocks: [RdsBlock; 4],
    pub what: u8,
    pub number: u8,
    pub version: u8,
    pub conflict: u8,
    pub unused: u32,
}

#[repr(C)]
#[derive(Clone, Copy, Debug, PartialEq, Eq, Hash)]
pub struct RdsGap {
    pub begin: u64,
    pub end: u64,
}

#[repr(C)]
#[derive(Clone, Copy, Debug, Default, PartialEq, Eq, Hash)]
pub struct RdsRules {
    pub burst: u32,
    pub reach: u32,
    pub loss: u32,
    pub of: u32,
    pub reserved: [u32; 4],
}

/// The state of a run between two bits.
#[repr(C)]
#[derive(Clone, Copy, Debug, Default, PartialEq, Eq, Hash)]
pub struct RdsState {
    pub due: u64,
    pub bad: u64,
    pub number: u32,
    pub first: u32,
    pub loss: u32,
    pub of: u32,
    pub reserved: u64,
}

/// The state of a stream between two chunks: numbers. However the same bytes were cut, by the same rules and gaps these are the same.
#[repr(C)]
#[derive(Clone, Copy, Debug, Default, PartialEq, Eq, Hash)]
pub struct RdsStream {
    pub magic: u32,
    pub version: u32,
    pub rules: RdsRules,
    pub place: u64,
    pub state: RdsState,
    pub totals: RdsTotals,
    pub tail: [u8; 32],
    pub reserved: u64,
}

/// The state of a stream of symbols between two chunks.
#[repr(C)]
#[derive(Clone, Copy, Debug, PartialEq, Eq, Hash)]
pub struct RdsSoft {
    pub stream: RdsStream,
    pub symbols: [i8; 240],
}

#[repr(C)]
#[derive(Clone, Copy, Debug, PartialEq, Eq, Hash)]
pub struct RdsWords {
    pub words: [u16; 4],
}

#[repr(C)]
#[derive(Clone, Copy, Debug, PartialEq, Eq, Hash)]
pub struct RdsPacked {
    pub bytes: [u8; 13],
}

extern "C" {
    pub fn rds_totals(bytes: *const u8, bytes_len: usize, bits: u64, gaps: *const RdsGap, gaps_len: usize, rules: *const RdsRules, found: *mut RdsTotals) -> u8;
    pub fn rds_items(bytes: *const u8, bytes_len: usize, bits: u64, gaps: *const RdsGap, gaps_len: usize, rules: *const RdsRules, room: *mut RdsItem, room_len: usize, count: *mut u64) -> u8;
    pub fn rds_run(bytes: *const u8, bytes_len: usize, bits: u64, gaps: *const RdsGap, gaps_len: usize, rules: *const RdsRules, from: u64, to: u64, state: *mut RdsState, room: *mut RdsItem, room_len: usize, count: *mut u64) -> u8;
    pub fn rds_finish_run(bytes: *const u8, bytes_len: usize, bits: u64, gaps: *const RdsGap, gaps_len: usize, rules: *const RdsRules, state: *const RdsState, room: *mut RdsItem, room_len: usize, count: *mut u64) -> u8;
    pub fn rds_push(bytes: *const u8, bytes_len: usize, gaps: *const RdsGap, gaps_len: usize, rules: *const RdsRules, stream: *mut RdsStream, room: *mut RdsItem, room_len: usize, taken: *mut u64, count: *mut u64) -> u8;
    pub fn rds_push_with(bytes: *const u8, bytes_len: usize, gaps: *const RdsGap, gaps_len: usize, rules: *const RdsRules, stream: *mut RdsStream, room: *mut RdsItem, room_len: usize, taken: *mut u64, count: *mut u64, scratch: *mut u8, scratch_len: usize) -> u8;
    pub fn rds_push_soft(symbols: *const i8, symbols_len: usize, gaps: *const RdsGap, gaps_len: usize, rules: *const RdsRules, margin: u8, soft: *mut RdsSoft, room: *mut RdsItem, room_len: usize, taken: *mut u64, count: *mut u64) -> u8;
    pub fn rds_push_soft_with(symbols: *const i8, symbols_len: usize, gaps: *const RdsGap, gaps_len: usize, rules: *const RdsRules, margin: u8, soft: *mut RdsSoft, room: *mut RdsItem, room_len: usize, taken: *mut u64, count: *mut u64, scratch: *mut u8, scratch_len: usize) -> u8;
    pub fn rds_finish(gaps: *const RdsGap, gaps_len: usize, rules: *const RdsRules, stream: *const RdsStream, room: *mut RdsItem, room_len: usize, count: *mut u64, totals: *mut RdsTotals) -> u8;
    pub fn rds_finish_with(bytes: *const u8, bytes_len: usize, bits: u64, gaps: *const RdsGap, gaps_len: usize, rules: *const RdsRules, stream: *const RdsStream, room: *mut RdsItem, room_len: usize, count: *mut u64, totals: *mut RdsTotals) -> u8;
    pub fn rds_check(gaps: *const RdsGap, gaps_len: usize, rules: *const RdsRules, stream: *const RdsStream) -> u8;
    pub fn rds_remainder(word: u32, found: *mut u16) -> u8;
    pub fn rds_correct(word: u32, offset: u8, limit: u8, found: *mut RdsBlock) -> u8;
    pub fn rds_encode(groups: *const RdsWords, groups_len: usize, room: *mut RdsPacked, room_len: usize) -> u8;
    pub fn rds_refusal_name(number: u8, room: *mut u8, room_len: usize) -> u8;
    pub fn rds_version() -> u32;
}
