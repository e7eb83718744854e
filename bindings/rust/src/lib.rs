//! The proved decoder of Radio Data System bits, through librds.
//!
//! Bits are packed into bytes, most significant bit first; a place is the position of a bit, from 0.
//!
//! ```
//! let groups = rds::encode(&[[0xD393, 0x0548, 0xE100, 0x5041]; 3])?;
//! let recording = rds::Recording::of(&groups);
//! for item in rds::items(&recording, &rds::Rules::default())? {
//!     if let rds::Item::Group(group) = item {
//!         println!("at {}: type {:?} {:?}, {:?}", group.place, group.group_type, group.version, group.blocks);
//!     }
//! }
//! let totals = rds::totals(&recording, &rds::Rules::default())?;
//! assert_eq!((totals.groups, totals.acquired), (3, 1));
//! # Ok::<(), rds::Refused>(())
//! ```
//!
//! A [`Follower`] decodes a stream chunk by chunk, and [`read`] decodes one from a reader. An error is a [`Refused`]: it has the number and
//! the name that the program prints, and its constants name the numbers. Calls of several threads run at the same time.

#![deny(missing_docs)]

pub mod ffi;
mod stream;

pub use stream::{read, ReadError, ReadItems};

use ffi::{RdsBlock, RdsGap, RdsItem, RdsPacked, RdsRules, RdsSoft, RdsTotals, RdsWords};
use std::cell::RefCell;
use std::fmt;
use std::io::Read;
use std::ops::Range;

/// The state of a stream.
pub use ffi::RdsStream as Stream;

/// An error of the library.
#[derive(Clone, Debug, PartialEq, Eq, Hash)]
pub struct Refused {
    /// Its number, which never changes its meaning.
    pub number: u8,
    /// Its name, such as `TooLong`.
    pub name: String,
    /// The number of the cause, if an `UNLAWFUL_STATE` has one with a name; else the number.
    pub cause: u8,
}

/// The numbers of errors.
#[allow(missing_docs)]
impl Refused {
    pub const BURST_RANGE: u8 = 1;
    pub const REACH_RANGE: u8 = 2;
    pub const LOSS_RANGE: u8 = 3;
    pub const BITS_PAST_BYTES: u8 = 4;
    pub const TOO_LONG: u8 = 5;
    pub const OUT_OF_MEMORY: u8 = 8;
    pub const SHARE_RANGE: u8 = 15;
    pub const BAD_GAPS: u8 = 16;
    pub const SMALL_ROOM: u8 = 64;
    pub const UNLAWFUL_STATE: u8 = 65;
    pub const PLACE_RANGE: u8 = 66;
    pub const BLOCK_RANGE: u8 = 67;
    pub const OFFSET_RANGE: u8 = 68;
    pub const NO_REFUSAL: u8 = 69;
    pub const BAD_POINTER: u8 = 70;
    pub const RESERVED_FIELD: u8 = 71;
    pub const NOT_A_STREAM: u8 = 72;
    pub const OTHER_VERSION: u8 = 73;
    pub const OTHER_RULES: u8 = 74;
    pub const MARGIN_RANGE: u8 = 75;
}

impl Refused {
    /// The reason in words, of the cause if there is one.
    pub fn reason(&self) -> &'static str {
        REASONS.iter().find(|it| it.0 == self.cause).map_or("", |it| it.1)
    }
}

/// `tests/test_header.py` compares these with the proved code, and those that it does not have with `lib/border.c`.
const REASONS: [(u8, &str); 20] = [
    (1, "the burst limit is above 5"),
    (2, "the reach is not 1 to 8"),
    (3, "the loss is not 1 to 64"),
    (4, "more bits than the bytes hold"),
    (5, "more than 2^36 bits"),
    (8, "out of memory"),
    (15, "the share is not 1 to 64 bad blocks of as many or more, up to 64"),
    (16, "gaps that are empty, out of order or past the bits"),
    (64, "too little room for the items"),
    (65, "a state that no call left"),
    (66, "places that are no range of the recording"),
    (67, "a word of more than 26 bits"),
    (68, "a number that is none of an offset"),
    (69, "a number that is none of a refusal"),
    (70, "a pointer that is not as required"),
    (71, "a reserved field that is not 0"),
    (72, "a stream that was not zeroed, or is in another byte order"),
    (73, "a stream of another version"),
    (74, "a stream that is decoded by other rules"),
    (75, "the margin is not 1 to 127"),
];

impl fmt::Display for Refused {
    fn fmt(&self, f: &mut fmt::Formatter<'_>) -> fmt::Result {
        write!(f, "refused {} {}: {}", self.number, self.name, self.reason())
    }
}

impl std::error::Error for Refused {}

/// The error of this number.
fn refused(number: u8) -> Refused {
    let mut room = [0u8; 16];
    // SAFETY: the room is ours, and as long as is said.
    unsafe { ffi::rds_refusal_name(number, room.as_mut_ptr(), room.len()) };
    let len = room.iter().position(|&byte| byte == 0).unwrap_or(0);
    Refused { number, name: String::from_utf8_lossy(&room[..len]).into_owned(), cause: number }
}

fn check(number: u8) -> Result<(), Refused> {
    match number {
        0 => Ok(()),
        number => Err(refused(number)),
    }
}

/// A recording: bits, and the gaps in them.
///
/// ```
/// # let bytes = [0u8; 100];
/// let part = rds::Recording { bits: 797, gaps: vec![104..130], ..rds::Recording::of(&bytes) };
/// ```
#[derive(Clone, Debug, PartialEq, Eq, Hash)]
pub struct Recording<'a> {
    /// The packed bytes, most significant bit first.
    pub bytes: &'a [u8],
    /// The recording is the first `bits` bits of the bytes: at most 2^36.
    pub bits: u64,
    /// Places whose bits are ignored, in order. None may be empty, overlap another or go past the end.
    pub gaps: Vec<Range<u64>>,
}

impl<'a> Recording<'a> {
    /// All bits of these bytes, without gaps.
    pub fn of(bytes: &'a [u8]) -> Recording<'a> {
        Recording { bytes, bits: 8 * bytes.len() as u64, gaps: Vec::new() }
    }

    fn gaps(&self) -> Vec<RdsGap> {
        gaps_of(&self.gaps)
    }
}

fn gaps_of(gaps: &[Range<u64>]) -> Vec<RdsGap> {
    gaps.iter().map(|gap| RdsGap { begin: gap.start, end: gap.end }).collect()
}

/// When sync is lost. A corrected block counts as bad.
#[derive(Clone, Copy, Debug, PartialEq, Eq, Hash)]
pub enum LossRule {
    /// After this number of bad blocks in a row: 1 to 64.
    Run(u32),
    /// If `bad` of the last `of` blocks are bad: 1 ≤ bad ≤ of ≤ 64.
    Share {
        /// How many bad blocks lose sync.
        bad: u32,
        /// Among how many of the last blocks.
        of: u32,
    },
}

/// The numbers of a decoder's rules. The default is the program's.
#[derive(Clone, Copy, Debug, PartialEq, Eq, Hash)]
pub struct Rules {
    /// The longest burst that is corrected, in bits: 0 to 5.
    pub burst: u32,
    /// Sync needs two valid blocks, at most this number of blocks apart (1 to 8), whose offset words fit each other.
    pub reach: u32,
    /// When sync is lost.
    pub loss: LossRule,
}

impl Default for Rules {
    fn default() -> Rules {
        Rules { burst: 2, reach: 3, loss: LossRule::Run(10) }
    }
}

impl Rules {
    fn numbers(&self) -> RdsRules {
        let (loss, of) = match self.loss {
            LossRule::Run(loss) => (loss, 0),
            // A share of none is refused as such, and not taken for a run.
            LossRule::Share { of: 0, .. } => (0, 1),
            LossRule::Share { bad, of } => (bad, of),
        };
        RdsRules { burst: self.burst, reach: self.reach, loss, of, reserved: [0; 4] }
    }
}

/// The twelve totals of a report.
#[derive(Clone, Copy, Debug, Default, PartialEq, Eq, Hash)]
pub struct Totals {
    /// Valid blocks.
    pub valid: u64,
    /// Corrected blocks, by burst length: 1 to 5 bits.
    pub bursts: [u64; 5],
    /// Uncorrectable blocks.
    pub lost: u64,
    /// Bits corrected.
    pub bits: u64,
    /// Groups.
    pub groups: u64,
    /// Groups of which all four blocks are valid or corrected.
    pub complete: u64,
    /// Acquisitions of block sync.
    pub acquired: u64,
    /// Losses of it.
    pub losses: u64,
}

impl From<RdsTotals> for Totals {
    fn from(found: RdsTotals) -> Totals {
        let RdsTotals { valid, bursts, lost, bits, groups, complete, acquired, losses, reserved: _ } = found;
        Totals { valid, bursts, lost, bits, groups, complete, acquired, losses }
    }
}

/// A block of a group.
#[derive(Clone, Copy, Debug, PartialEq, Eq, Hash)]
pub enum Block {
    /// It was not read: the group was cut off by an acquisition, a loss or the end.
    Missing,
    /// It is uncorrectable, or touches a gap.
    Lost,
    /// It is valid: its remainder is its offset word.
    Valid {
        /// The offset.
        offset: Offset,
        /// The information word.
        info: u16,
    },
    /// A burst of bit errors was corrected.
    Corrected {
        /// The offset.
        offset: Offset,
        /// The information word, corrected.
        info: u16,
        /// The error mask: 26 bits, of which the ones were corrected.
        burst: u32,
    },
}

impl Block {
    /// The information word, if the block is valid or corrected.
    pub fn info(&self) -> Option<u16> {
        match *self {
            Block::Valid { info, .. } | Block::Corrected { info, .. } => Some(info),
            Block::Missing | Block::Lost => None,
        }
    }
}

/// An offset word.
#[derive(Clone, Copy, Debug, PartialEq, Eq, PartialOrd, Ord, Hash)]
pub enum Offset {
    /// A, of block 1.
    A,
    /// B, of block 2.
    B,
    /// C, of block 3 of a version A group.
    C,
    /// C', of block 3 of a version B group.
    Cx,
    /// D, of block 4.
    D,
}

/// An entry of a report.
#[derive(Clone, Copy, Debug, PartialEq, Eq, Hash)]
pub enum Item {
    /// Block sync was acquired.
    Acquired {
        /// The place of the block's last bit.
        place: u64,
        /// The number of the block, 1 to 4.
        number: u8,
    },
    /// A group.
    Group(Group),
    /// Block sync was lost.
    Loss {
        /// The place of the last bit of the block that lost it.
        place: u64,
    },
}

impl Item {
    /// The place of the item: of a group its first bit that was read, else the last bit of the block that acquired or lost sync.
    pub fn place(&self) -> u64 {
        match *self {
            Item::Acquired { place, .. } | Item::Loss { place } => place,
            Item::Group(group) => group.place,
        }
    }
}

/// A group.
#[derive(Clone, Copy, Debug, PartialEq, Eq, Hash)]
pub struct Group {
    /// The place of its first bit that was read.
    pub place: u64,
    /// Its four blocks.
    pub blocks: [Block; 4],
    /// The group type, 0 to 15, if it is known.
    pub group_type: Option<u8>,
    /// Its version, if it is known.
    pub version: Option<Version>,
    /// Whether blocks 2 and 3 name different versions.
    pub conflict: bool,
}

impl Group {
    /// The information words of the four blocks, if they are known.
    pub fn words(&self) -> [Option<u16>; 4] {
        self.blocks.map(|block| block.info())
    }
}

/// The version of a group.
#[derive(Clone, Copy, Debug, PartialEq, Eq, PartialOrd, Ord, Hash)]
pub enum Version {
    /// Version A.
    A,
    /// Version B.
    B,
}

fn block_of(block: RdsBlock) -> Block {
    let offset = match block.offset {
        1 => Offset::A,
        2 => Offset::B,
        3 => Offset::C,
        4 => Offset::Cx,
        _ => Offset::D,
    };
    let RdsBlock { info, burst, .. } = block;
    match block.kind {
        0 => Block::Missing,
        1 => Block::Lost,
        2 => Block::Valid { offset, info },
        _ => Block::Corrected { offset, info, burst },
    }
}

fn item_of(item: &RdsItem) -> Item {
    match item.what {
        1 => Item::Acquired { place: item.place, number: item.number },
        3 => Item::Loss { place: item.place },
        _ => Item::Group(Group {
            place: item.place,
            blocks: item.blocks.map(block_of),
            group_type: (item.number != 255).then_some(item.number),
            version: match item.version {
                1 => Some(Version::A),
                2 => Some(Version::B),
                _ => None,
            },
            conflict: item.conflict == 1,
        }),
    }
}

/// The items of a call, in order of completion.
#[derive(Clone, Debug)]
pub struct Items(std::vec::IntoIter<RdsItem>);

impl Iterator for Items {
    type Item = Item;

    fn next(&mut self) -> Option<Item> {
        self.0.next().map(|item| item_of(&item))
    }

    fn size_hint(&self) -> (usize, Option<usize>) {
        self.0.size_hint()
    }
}

impl ExactSizeIterator for Items {}

/// The totals of a recording.
///
/// Errors: 1, 2, 3 and 15 if rules are out of range, 5 and 4 if there are too many bits, 16 if gaps are not as required, and 8 if the
/// system gave no memory.
///
/// ```
/// let bytes = rds::encode(&[[0xD393, 0x0548, 0xE100, 0x5041]; 3])?;
/// let totals = rds::totals(&rds::Recording::of(&bytes), &rds::Rules::default())?;
/// assert_eq!((totals.valid, totals.groups), (11, 3));
/// # Ok::<(), rds::Refused>(())
/// ```
pub fn totals(recording: &Recording<'_>, rules: &Rules) -> Result<Totals, Refused> {
    let (bytes, gaps, rules) = (recording.bytes, recording.gaps(), rules.numbers());
    let mut found = RdsTotals::default();
    // SAFETY: each pointer is that of a slice with its length, or of one value, and what is written is ours alone.
    check(unsafe {
        ffi::rds_totals(bytes.as_ptr(), bytes.len(), recording.bits, gaps.as_ptr(), gaps.len(), &rules, &mut found)
    })?;
    Ok(found.into())
}

/// The items of a recording, in order of completion. The errors are those of [`totals`].
///
/// ```
/// let bytes = rds::encode(&[[0xD393, 0x0548, 0xE100, 0x5041]; 3])?;
/// let mut items = rds::items(&rds::Recording::of(&bytes), &rds::Rules::default())?;
/// assert_eq!(items.next(), Some(rds::Item::Acquired { place: 51, number: 2 }));
/// # Ok::<(), rds::Refused>(())
/// ```
pub fn items(recording: &Recording<'_>, rules: &Rules) -> Result<Items, Refused> {
    let (bytes, gaps, rules) = (recording.bytes, recording.gaps(), rules.numbers());
    let mut count = 64.max(8 * bytes.len() as u64 / 80);
    loop {
        let mut room = vec![RdsItem::default(); count as usize];
        // SAFETY: as in `totals`.
        let number = unsafe {
            ffi::rds_items(
                bytes.as_ptr(),
                bytes.len(),
                recording.bits,
                gaps.as_ptr(),
                gaps.len(),
                &rules,
                room.as_mut_ptr(),
                room.len(),
                &mut count,
            )
        };
        if number != Refused::SMALL_ROOM {
            check(number)?;
            room.truncate(count as usize);
            return Ok(Items(room.into_iter()));
        }
    }
}

/// A stream that is followed chunk by chunk.
///
/// However it is cut, the items of all chunks and the group at the end are those that [`items`] gives for the whole.
///
/// ```
/// let mut follower = rds::Follower::new(&rds::Rules::default(), &[])?;
/// for chunk in [[0u8; 50]; 2] {
///     for item in follower.push(&chunk)? {
///         println!("{item:?}");
///     }
/// }
/// let (group, totals) = follower.finish()?;
/// assert!(follower.place() == 800 && group.is_none() && totals.groups == 0);
/// # Ok::<(), rds::Refused>(())
/// ```
#[derive(Clone, Debug)]
pub struct Follower {
    rules: RdsRules,
    gaps: Vec<RdsGap>,
    stream: Stream,
}

// Room for items: a call of the library takes 960 bytes at once, of which each completes at most 16.
const ROOM: usize = 16 * 960;

// How many bytes a call of the library is offered.
const OFFERED: usize = 1 << 14;

thread_local! {
    // The items of a call, until they are copied.
    static SPARE: RefCell<Vec<RdsItem>> = const { RefCell::new(Vec::new()) };
}

impl Follower {
    /// A new stream. The gaps are places in the stream, and may be later than all bytes so far.
    pub fn new(rules: &Rules, gaps: &[Range<u64>]) -> Result<Follower, Refused> {
        Follower::resume(rules, gaps, Stream::default())
    }

    /// Continues a stream from its [`stream`](Follower::stream), by the same rules and gaps. Numbers of no stream, or by other rules, are
    /// error 65, with the cause.
    pub fn resume(rules: &Rules, gaps: &[Range<u64>], stream: Stream) -> Result<Follower, Refused> {
        let (rules, gaps) = (rules.numbers(), gaps_of(gaps));
        // SAFETY: as in `totals`.
        match unsafe { ffi::rds_check(gaps.as_ptr(), gaps.len(), &rules, &stream) } {
            0 => Ok(Follower { rules, gaps, stream }),
            cause @ Refused::NOT_A_STREAM..=Refused::OTHER_RULES => Err(Refused { cause, ..refused(Refused::UNLAWFUL_STATE) }),
            number => Err(refused(number)),
        }
    }

    /// Takes the next bytes, any number of them, and gives the items that they complete. Past 2^36 bits it is error 5. On error the stream
    /// is unchanged.
    pub fn push(&mut self, bytes: &[u8]) -> Result<Items, Refused> {
        let (mut stream, mut rest, mut found) = (self.stream, bytes, Vec::new());
        SPARE.with_borrow_mut(|room| loop {
            room.resize(ROOM, RdsItem::default());
            let (taken, count) = self.push_some(&mut stream, &rest[..rest.len().min(OFFERED)], room)?;
            found.extend_from_slice(&room[..count]);
            rest = &rest[taken..];
            if rest.is_empty() {
                self.stream = stream;
                return Ok(Items(found.into_iter()));
            }
        })
    }

    /// Takes as many of these bytes as their items have room for: how many, and the number of items.
    fn push_some(&self, stream: &mut Stream, bytes: &[u8], room: &mut [RdsItem]) -> Result<(usize, usize), Refused> {
        let (mut taken, mut count) = (0, 0);
        // SAFETY: as in `totals`.
        check(unsafe {
            ffi::rds_push(
                bytes.as_ptr(),
                bytes.len(),
                self.gaps.as_ptr(),
                self.gaps.len(),
                &self.rules,
                stream,
                room.as_mut_ptr(),
                room.len(),
                &mut taken,
                &mut count,
            )
        })?;
        Ok((taken as usize, count as usize))
    }

    /// The group in progress, as far as it was read, and the totals of everything heard, if the stream ended here. It can
    /// continue.
    pub fn finish(&self) -> Result<(Option<Group>, Totals), Refused> {
        let (mut group, mut count, mut totals) = (RdsItem::default(), 0, RdsTotals::default());
        // SAFETY: as in `totals`; the room is that of one item.
        check(unsafe {
            ffi::rds_finish(
                self.gaps.as_ptr(),
                self.gaps.len(),
                &self.rules,
                &self.stream,
                &mut group,
                1,
                &mut count,
                &mut totals,
            )
        })?;
        let group = match item_of(&group) {
            Item::Group(group) if count == 1 => Some(group),
            _ => None,
        };
        Ok((group, totals.into()))
    }

    /// The items that the first `bits` bits of these bytes complete, followed by the group in progress, and the totals of everything
    /// heard and of these bits, if the stream ended with them: inside a byte, for example. It can continue.
    pub fn finish_with(&self, bytes: &[u8], bits: u64) -> Result<(Items, Totals), Refused> {
        let (mut count, mut totals) = (8 + bytes.len() as u64 / 4, RdsTotals::default());
        loop {
            let mut room = vec![RdsItem::default(); count as usize];
            // SAFETY: as in `totals`.
            let number = unsafe {
                ffi::rds_finish_with(
                    bytes.as_ptr(),
                    bytes.len(),
                    bits,
                    self.gaps.as_ptr(),
                    self.gaps.len(),
                    &self.rules,
                    &self.stream,
                    room.as_mut_ptr(),
                    room.len(),
                    &mut count,
                    &mut totals,
                )
            };
            if number != Refused::SMALL_ROOM {
                check(number)?;
                room.truncate(count as usize);
                return Ok((Items(room.into_iter()), totals.into()));
            }
        }
    }

    /// The number of bits heard.
    pub fn place(&self) -> u64 {
        self.stream.place
    }

    /// The state of the stream: numbers, which can be stored, compared and hashed.
    pub fn stream(&self) -> &Stream {
        &self.stream
    }

    /// The items of the next bits of the stream, which a reader gives, as [`read`] gives them.
    pub fn read<R: Read>(self, reader: R) -> ReadItems<R> {
        ReadItems::new(self, reader)
    }
}

/// A stream of symbols that is followed chunk by chunk: soft decisions.
///
/// A symbol is a signed byte: its sign tells the bits beside it, its size how sure it is, in units of 1/16 nat. The items are those of the
/// bits, each group read again from its symbols: a corrected block has any mask, not only a burst.
///
/// ```
/// let mut follower = rds::SoftFollower::new(&rds::Rules::default(), &[], rds::SoftFollower::MARGIN)?;
/// let items = follower.push(&[100; 801])?;
/// assert!(items.len() == 0 && follower.stream().place == 800);
/// # Ok::<(), rds::Refused>(())
/// ```
#[derive(Clone, Debug)]
pub struct SoftFollower {
    follower: Follower,
    symbols: [i8; 240],
    margin: u8,
    /// Symbols that were not taken: eight at most.
    rest: Vec<i8>,
}

impl SoftFollower {
    /// The usual margin: two nats.
    pub const MARGIN: u8 = 2 * 16;

    /// A new stream. All other flips of a block's symbols must weigh by `margin` more than those that are corrected: 1 to 127, else it is
    /// error 75.
    pub fn new(rules: &Rules, gaps: &[Range<u64>], margin: u8) -> Result<SoftFollower, Refused> {
        let follower = Follower::new(rules, gaps)?;
        let mut soft = SoftFollower { follower, symbols: [0; 240], margin, rest: Vec::new() };
        soft.push(&[])?;
        Ok(soft)
    }

    /// Takes the next symbols, any number of them, and gives the items that they complete, up to seven bits late. Past 2^36 bits it is
    /// error 5. On error the stream is unchanged.
    pub fn push(&mut self, symbols: &[i8]) -> Result<Items, Refused> {
        let mut soft = RdsSoft { stream: self.follower.stream, symbols: self.symbols };
        let (all, mut at, mut found) = ([&self.rest, symbols].concat(), 0, Vec::new());
        SPARE.with_borrow_mut(|room| loop {
            room.resize(ROOM, RdsItem::default());
            let (taken, count) = self.push_some(&mut soft, &all[at..], room)?;
            found.extend_from_slice(&room[..count]);
            at += taken;
            if all.len() - at <= 8 {
                (self.follower.stream, self.symbols) = (soft.stream, soft.symbols);
                self.rest = all[at..].to_vec();
                return Ok(Items(found.into_iter()));
            }
        })
    }

    /// Takes as many of these symbols as the library takes at once: how many, and the number of items.
    fn push_some(&self, soft: &mut RdsSoft, symbols: &[i8], room: &mut [RdsItem]) -> Result<(usize, usize), Refused> {
        let (mut taken, mut count) = (0, 0);
        // SAFETY: as in `totals`.
        check(unsafe {
            ffi::rds_push_soft(
                symbols.as_ptr(),
                symbols.len(),
                self.follower.gaps.as_ptr(),
                self.follower.gaps.len(),
                &self.follower.rules,
                self.margin,
                soft,
                room.as_mut_ptr(),
                room.len(),
                &mut taken,
                &mut count,
            )
        })?;
        Ok((taken as usize, count as usize))
    }

    /// The state of the stream of bits, which [`Follower::resume`] continues by bits, to its end for example.
    pub fn stream(&self) -> &Stream {
        &self.follower.stream
    }
}

/// The remainder of a 26-bit word by the generator of the block code, below 1024. A longer word is error 67.
///
/// ```
/// assert_eq!(rds::remainder(0x400)?, 0x1B9);
/// # Ok::<(), rds::Refused>(())
/// ```
pub fn remainder(word: u32) -> Result<u16, Refused> {
    let mut found = 0;
    // SAFETY: what is written is ours.
    check(unsafe { ffi::rds_remainder(word, &mut found) })?;
    Ok(found)
}

/// A 26-bit word read as the block with this offset. A burst of up to `limit` bits, 0 to 5, is corrected if exactly one fits. A longer
/// word is error 67, a higher limit error 1.
///
/// ```
/// let block = rds::correct(0x095_80C8, rds::Offset::A, 1)?;
/// assert_eq!(block, rds::Block::Corrected { offset: rds::Offset::A, info: 0x2540, burst: 0x8000 });
/// # Ok::<(), rds::Refused>(())
/// ```
pub fn correct(word: u32, offset: Offset, limit: u8) -> Result<Block, Refused> {
    read_as(word, offset as u8 + 1, limit)
}

/// The same as block 3 of a group whose version is not known: its offset is C or C'.
pub fn correct_third(word: u32, limit: u8) -> Result<Block, Refused> {
    read_as(word, 6, limit)
}

fn read_as(word: u32, offset: u8, limit: u8) -> Result<Block, Refused> {
    let mut found = RdsBlock::default();
    // SAFETY: what is written is ours.
    check(unsafe { ffi::rds_correct(word, offset, limit, &mut found) })?;
    Ok(block_of(found))
}

/// The bits of groups as they are sent, from the information words of their four blocks: 13 bytes per group.
///
/// ```
/// assert_eq!(rds::encode(&[[0x1234, 0x2540, 0x5244, 0x5320]])?[..4], [0x12, 0x34, 0x1A, 0x89]);
/// # Ok::<(), rds::Refused>(())
/// ```
pub fn encode(groups: &[[u16; 4]]) -> Result<Vec<u8>, Refused> {
    let words: Vec<RdsWords> = groups.iter().map(|&words| RdsWords { words }).collect();
    let mut room = vec![RdsPacked { bytes: [0; 13] }; words.len()];
    // SAFETY: each pointer is that of a vector with its length.
    check(unsafe { ffi::rds_encode(words.as_ptr(), words.len(), room.as_mut_ptr(), room.len()) })?;
    Ok(room.iter().flat_map(|packed| packed.bytes).collect())
}

/// The version of the library.
pub fn version() -> (u32, u32, u32) {
    // SAFETY: nothing is lent.
    let number = unsafe { ffi::rds_version() };
    (number >> 16, number >> 8 & 255, number & 255)
}
