//! Calls that the table of tests/library does not have: texts of errors, methods of items, `resume`, `read`.

// The items of a push may be dropped.
#![deny(unused_must_use)]

use rds::{Block, Follower, Group, Item, LossRule, Offset, ReadError, ReadItems, Recording, Refused, Rules, SoftFollower, Stream, Totals, Version};
use std::error::Error;
use std::fmt::{Debug, Write};
use std::hash::Hash;
use std::io::{self, Read};

const GROUP: [u16; 4] = [0xD393, 0x0548, 0xE100, 0x5041];

/// Encoded groups, of which the block that ends at each 520th bit has a burst of two bits.
fn damaged() -> Vec<u8> {
    let mut bytes = rds::encode(&[GROUP; 50]).unwrap();
    bytes.iter_mut().skip(60).step_by(65).for_each(|byte| *byte ^= 0x18);
    bytes
}

fn refused(number: u8) -> Refused {
    let rules = Rules::default();
    let found = match number {
        5 => rds::totals(&Recording { bits: (1 << 36) + 1, ..Recording::of(&[]) }, &rules).err(),
        15 => rds::totals(&Recording::of(&[]), &Rules { loss: LossRule::Share { bad: 10, of: 0 }, ..rules }).err(),
        _ => Follower::new(&rules, &[5..5]).err(),
    };
    found.expect("it is refused")
}

#[test]
fn errors_are_told() {
    assert_eq!(refused(5).to_string(), "refused 5 TooLong: more than 2^36 bits");
    assert_eq!(refused(15).to_string(), "refused 15 ShareRange: the share is not 1 to 64 bad blocks of as many or more, up to 64");
    assert_eq!(refused(16).to_string(), "refused 16 BadGaps: gaps that are empty, out of order or past the bits");
    let read = ReadError::from(refused(16));
    assert_eq!(read.to_string(), refused(16).to_string());
    assert_eq!(read.source().map(|it| it.to_string()), Some(refused(16).to_string()));
}

#[test]
fn a_stream_by_other_rules_is_refused_at_once() {
    let mut follower = Follower::new(&Rules { burst: 1, ..Rules::default() }, &[]).unwrap();
    follower.push(&damaged()).unwrap();
    let error = Follower::resume(&Rules::default(), &[], *follower.stream()).unwrap_err();
    assert_eq!((error.number, error.cause), (Refused::UNLAWFUL_STATE, Refused::OTHER_RULES));
    assert_eq!(error.to_string(), "refused 65 UnlawfulState: a stream that is decoded by other rules");
    assert_eq!(Follower::new(&Rules { burst: 6, ..Rules::default() }, &[]).unwrap_err().number, 1);
}

/// Each cause by its name: the stream's first number, its version, and any other damage.
#[test]
fn bytes_of_a_stream() {
    let bytes = damaged();
    let mut follower = Follower::new(&Rules::default(), &[]).unwrap();
    follower.push(&bytes[..100]).unwrap();
    let stored = follower.stream().to_bytes();
    assert_eq!(Stream::from_bytes(stored), *follower.stream());
    let mut again = Follower::resume(&Rules::default(), &[], Stream::from_bytes(stored)).unwrap();
    follower.push(&bytes[100..]).unwrap();
    again.push(&bytes[100..]).unwrap();
    assert_eq!(again.stream().to_bytes(), follower.stream().to_bytes());
    for (at, cause) in [(0, Refused::NOT_A_STREAM), (4, Refused::OTHER_VERSION), (255, Refused::UNLAWFUL_STATE)] {
        let mut wrong = stored;
        wrong[at] ^= 1;
        let error = Follower::resume(&Rules::default(), &[], Stream::from_bytes(wrong)).unwrap_err();
        assert_eq!((error.number, error.cause), (Refused::UNLAWFUL_STATE, cause));
    }
}

#[test]
fn totals_have_no_other_field() {
    let Totals { valid, bursts, lost, bits, groups, complete, acquired, losses } =
        rds::totals(&Recording::of(&damaged()), &Rules::default()).unwrap();
    let corrected: u64 = bursts.iter().sum();
    assert_eq!((valid + corrected + lost, groups, acquired, losses), (199, 50, 1, 0));
    assert!(complete == 49 && bits == 2 * corrected && corrected > 5);
}

#[test]
fn items_tell_their_place_and_words() {
    let bytes = damaged();
    let items: Vec<Item> = rds::items(&Recording::of(&bytes), &Rules::default()).unwrap().collect();
    assert_eq!(items.iter().take(3).map(Item::place).collect::<Vec<_>>(), [51, 26, 104]);
    let groups = items.iter().filter_map(|it| if let Item::Group(group) = it { Some(group) } else { None });
    let corrected = groups.filter(|it| it.blocks.iter().any(|block| matches!(block, Block::Corrected { .. })));
    assert!(corrected.map(|it| assert_eq!(it.words(), GROUP.map(Some))).count() > 0);
    let noise = rds::items(&Recording::of(&[&bytes[..], &[0x55; 200]].concat()), &Rules::default()).unwrap().last();
    assert!(matches!(noise, Some(Item::Loss { place }) if noise.unwrap().place() == place));
}

#[test]
fn read_takes_rules_and_gaps() {
    let bytes = damaged();
    let (rules, gaps) = (Rules { burst: 0, ..Rules::default() }, vec![104..130, 1000..1001]);
    let recording = Recording { gaps: gaps.clone(), ..Recording::of(&bytes) };
    let mut items = rds::read(&bytes[..], &rules, &gaps).unwrap();
    let read: Vec<Item> = items.by_ref().map(Result::unwrap).collect();
    assert_eq!(read, rds::items(&recording, &rules).unwrap().collect::<Vec<_>>());
    assert_eq!(items.totals().unwrap(), rds::totals(&recording, &rules).unwrap());
}

#[test]
fn a_follower_can_be_cloned_and_sent() {
    fn is<T: Clone + Send + Sync + std::fmt::Debug>(_: &T) {}
    let follower = Follower::new(&Rules::default(), &[]).unwrap();
    is(&follower);
    let mut text = String::new();
    write!(text, "{follower:?}").unwrap();
    assert!(std::thread::spawn(move || follower.place()).join().unwrap() == 0 && text.starts_with("Follower"));
}

#[test]
fn values_can_be_compared_hashed_and_sent() {
    fn is_value<T: Copy + Eq + Hash + Debug + Send + Sync + 'static>() {}
    fn is_sent<T: Debug + Send + Sync>() {}
    is_value::<Rules>();
    is_value::<LossRule>();
    is_value::<Block>();
    is_value::<Offset>();
    is_value::<Version>();
    is_value::<Group>();
    is_value::<Item>();
    is_value::<Totals>();
    is_value::<rds::ffi::RdsStream>();
    is_sent::<SoftFollower>();
    is_sent::<Refused>();
    is_sent::<Recording<'_>>();
    is_sent::<ReadItems<&[u8]>>();
    is_sent::<ReadError>();
}

/// An acquisition by a block 2, and a loss, each 52 bits: more items than there is room for at first.
fn dense() -> (Vec<u8>, Rules) {
    let group = rds::encode(&[GROUP]).unwrap();
    let bits = group.iter().flat_map(|byte| (0..8).rev().map(move |k| byte >> k & 1)).collect::<Vec<u8>>();
    let part: Vec<u8> = [&bits[..52], &[0; 26]].concat().repeat(800);
    let bytes = part.chunks(8).map(|byte| byte.iter().fold(0, |sum, bit| sum << 1 | bit)).collect();
    (bytes, Rules { burst: 0, reach: 1, loss: LossRule::Run(1) })
}

#[test]
fn items_that_do_not_fit_at_first() {
    let (bytes, rules) = dense();
    let whole = rds::items(&Recording::of(&bytes), &rules).unwrap();
    let count = whole.len();
    let whole: Vec<Item> = whole.collect();
    assert!(whole.len() == count && count > 8 + bytes.len() / 4, "{count} items of {} bytes", bytes.len());
    let mut follower = Follower::new(&rules, &[]).unwrap();
    let (items, totals) = follower.finish_with(&bytes, 8 * bytes.len() as u64).unwrap();
    assert_eq!((items.len(), totals), (count, rds::totals(&Recording::of(&bytes), &rules).unwrap()));
    assert_eq!(items.collect::<Vec<_>>(), whole);
    let pushed = follower.push(&bytes).unwrap();
    assert_eq!(pushed.len() + usize::from(follower.finish().unwrap().0.is_some()), count);
}

/// Gives these bytes, one answer per read, and then an error.
struct Cut(Vec<io::Result<Vec<u8>>>);

impl Read for Cut {
    fn read(&mut self, into: &mut [u8]) -> io::Result<usize> {
        if self.0.is_empty() {
            return Err(io::ErrorKind::BrokenPipe.into());
        }
        let first = self.0.remove(0)?;
        into[..first.len()].copy_from_slice(&first);
        Ok(first.len())
    }
}

#[test]
fn items_before_an_error_come_first() {
    let bytes = damaged();
    let mut wanted = Follower::new(&Rules::default(), &[]).unwrap();
    let wanted: Vec<Item> = wanted.push(&bytes).unwrap().collect();
    let mut items = rds::read(Cut(vec![Ok(bytes)]), &Rules::default(), &[]).unwrap();
    assert_eq!(items.by_ref().map_while(Result::ok).collect::<Vec<_>>(), wanted);
    assert!(items.next().is_none() && items.totals().unwrap().groups > 40);
}

#[test]
fn a_read_without_bytes_is_not_the_end() {
    let bytes = damaged();
    let kinds = [io::ErrorKind::WouldBlock, io::ErrorKind::TimedOut];
    let mut reads: Vec<io::Result<Vec<u8>>> = bytes.chunks(100).map(|chunk| Ok(chunk.to_vec())).collect();
    kinds.iter().for_each(|&kind| reads.insert(1, Err(kind.into())));
    reads.push(Ok(Vec::new()));
    let rules = Rules { burst: 0, ..Rules::default() };
    let mut items = Follower::new(&rules, &[]).unwrap().read(Cut(reads));
    let (found, errors): (Vec<_>, Vec<_>) = items.by_ref().partition(Result::is_ok);
    assert_eq!(errors.len(), kinds.len());
    let whole: Vec<Item> = rds::items(&Recording::of(&bytes), &rules).unwrap().collect();
    assert_eq!(found.into_iter().map(Result::unwrap).collect::<Vec<_>>(), whole);
    let (rest, follower) = items.into_parts();
    assert!(rest.0.is_empty() && follower.place() == 8 * bytes.len() as u64);
}

#[test]
fn a_third_block_may_be_of_either_version() {
    let corrected = |offset, burst| Ok(Block::Corrected { offset, info: 0xE100, burst });
    assert_eq!(rds::correct_third(0x384_00BB, 2), corrected(Offset::C, 0x30));
    assert_eq!(rds::correct_third(0x384_0283, 2), corrected(Offset::Cx, 0x30));
    assert_eq!(rds::correct(0x384_0283, Offset::C, 2), Ok(Block::Lost));
}

/// Symbols of encoded groups, one in 130 of them wrong and unsure.
fn symbols() -> Vec<i8> {
    let bytes = rds::encode(&[GROUP; 20]).unwrap();
    let mut symbols: Vec<i8> = vec![100];
    for place in 0..8 * bytes.len() {
        let bit = bytes[place / 8] >> (7 - place % 8) & 1;
        symbols.push(symbols[place] * (1 - 2 * bit as i8));
    }
    symbols.iter_mut().skip(250).step_by(130).for_each(|symbol| *symbol /= -10);
    symbols
}

#[test]
fn symbols_are_read_again_however_they_are_cut() {
    let (rules, symbols) = (Rules::default(), symbols());
    let mut follower = SoftFollower::new(&rules, &[], SoftFollower::MARGIN).unwrap();
    let items: Vec<Item> = symbols.chunks(97).flat_map(|chunk| follower.push(chunk).unwrap()).collect();
    let groups: Vec<&Group> = items.iter().filter_map(|it| if let Item::Group(group) = it { Some(group) } else { None }).skip(1).collect();
    assert!(groups.len() > 15 && groups.iter().all(|group| group.words() == GROUP.map(Some)));
    let blocks = groups.iter().flat_map(|group| group.blocks);
    assert!(blocks.filter(|block| matches!(block, Block::Corrected { .. })).count() > 10);
    let mut other = SoftFollower::new(&rules, &[], SoftFollower::MARGIN).unwrap();
    assert_eq!(other.push(&symbols).unwrap().collect::<Vec<_>>(), items);
    assert_eq!(other.stream(), follower.stream());
    let bits = Follower::resume(&rules, &[], *follower.stream()).unwrap();
    assert!(bits.place() == symbols.len() as u64 / 8 * 8 && bits.finish().is_ok());
    let error = SoftFollower::new(&rules, &[], 0).unwrap_err();
    assert_eq!(error.to_string(), "refused 75 MarginRange: the margin is not 1 to 127");
}
