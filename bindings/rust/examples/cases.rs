//! Answers calls, a line each on standard input, as the table of the library's tests has them.

use rds::{Block, Follower, Item, LossRule, Offset, Recording, Refused, Rules, Version};

fn offset_name(offset: Offset) -> &'static str {
    match offset {
        Offset::A => "A",
        Offset::B => "B",
        Offset::C => "C",
        Offset::Cx => "Cx",
        Offset::D => "D",
    }
}

fn block_text(block: Block) -> String {
    match block {
        Block::Missing => "missing".into(),
        Block::Lost => "lost".into(),
        Block::Valid { offset, info } => format!("valid {} {info:04X} 0000000", offset_name(offset)),
        Block::Corrected { offset, burst, .. } => {
            format!("corrected {} {:04X} {burst:07X}", offset_name(offset), block.info().expect("a corrected block has a word"))
        }
    }
}

fn item_text(item: Item) -> String {
    match item {
        Item::Acquired { place, number } => format!("acquired {place} {number}"),
        Item::Loss { place } => format!("lost {place}"),
        Item::Group(group) => {
            let kind = group.group_type.map_or(-1, i32::from);
            let version = match group.version {
                Some(Version::A) => "A",
                Some(Version::B) => "B",
                None => "?",
            };
            let mark = if group.conflict { "!" } else { "" };
            format!("group {} {kind} {version}{mark}, {}", group.place, group.blocks.map(block_text).join(", "))
        }
    }
}

fn bytes_of(digits: &str) -> Vec<u8> {
    let digits = digits.trim_matches('-');
    (0..digits.len()).step_by(2).map(|k| u8::from_str_radix(&digits[k..k + 2], 16).expect("two digits")).collect()
}

fn groups_of(words: &[&str]) -> Vec<[u16; 4]> {
    words.iter().map(|group| [0, 4, 8, 12].map(|k| u16::from_str_radix(&group[k..k + 4], 16).expect("a word"))).collect()
}

fn rules_of(words: &[&str]) -> Rules {
    let [burst, reach, loss, of] = [0, 1, 2, 3].map(|k| words[k].parse().expect("a number"));
    let loss = if of == 0 { LossRule::Run(loss) } else { LossRule::Share { bad: loss, of } };
    Rules { burst, reach, loss }
}

/// The items of a stream of the recording's bits, in ever other chunks of up to 1000 bytes, each from what is known of the stream.
fn followed(recording: &Recording, rules: &Rules) -> Result<Vec<Item>, Refused> {
    let (bits, gaps) = (recording.bits as usize, &recording.gaps);
    let (whole, last) = recording.bytes[..bits.div_ceil(8)].split_at(bits / 8);
    let (mut follower, mut items, mut rest, mut random) = (Follower::new(rules, gaps)?, Vec::new(), whole, whole.len() as u32);
    while !rest.is_empty() {
        random = random.wrapping_mul(1664525).wrapping_add(1013904223);
        let (chunk, later) = rest.split_at(rest.len().min((random >> 8) as usize % 1001));
        follower = Follower::resume(rules, gaps, *follower.stream())?;
        items.extend(follower.push(chunk)?);
        rest = later;
    }
    items.extend(follower.finish_with(last, recording.bits % 8)?.0);
    if bits % 8 == 0 {
        let (group, totals) = follower.finish()?;
        assert!(group.is_none() || items.last() == group.map(Item::Group).as_ref());
        assert!(totals == follower.finish_with(&[], 0)?.1);
    }
    Ok(items)
}

fn answer(call: &str, words: &[&str]) -> Result<String, Refused> {
    if call == "totals" || call == "items" {
        let bytes = bytes_of(words[0]);
        let gaps = words[6].split(',').filter_map(|gap| gap.split_once('-').filter(|it| !it.0.is_empty()));
        let gaps = gaps.map(|(begin, end)| begin.parse().expect("a place")..end.parse().expect("a place")).collect();
        let recording = Recording { bytes: &bytes, bits: words[1].parse().expect("a number"), gaps };
        let rules = rules_of(&words[2..6]);
        if call == "items" {
            let items: Vec<_> = rds::items(&recording, &rules)?.collect();
            assert!(followed(&recording, &rules)? == items, "a stream of the same bits has other items");
            let items: Vec<_> = items.into_iter().map(item_text).collect();
            return Ok([vec![items.len().to_string()], items].concat().join("; "));
        }
        let t = rds::totals(&recording, &rules)?;
        let [one, two, three, four, five] = t.bursts;
        let all = [t.valid, one, two, three, four, five, t.lost, t.bits, t.groups, t.complete, t.acquired, t.losses];
        return Ok(all.map(|it| it.to_string()).join(" "));
    }
    if call == "correct" {
        let word = u32::from_str_radix(words[0], 16).expect("a word");
        return read_as(word, words[1], words[2].parse().expect("a limit")).map(block_text);
    }
    Ok(match call {
        "remainder" => format!("{:03X}", rds::remainder(u32::from_str_radix(words[0], 16).expect("a word"))?),
        "encode" => rds::encode(&groups_of(words))?.iter().map(|byte| format!("{byte:02X}")).collect(),
        "version" => {
            let (major, minor, patch) = rds::version();
            format!("{major}.{minor}.{patch}")
        }
        _ => {
            let Rules { burst, reach, loss } = Rules::default();
            match loss {
                LossRule::Run(loss) => format!("{burst} {reach} {loss} 0"),
                LossRule::Share { bad, of } => format!("{burst} {reach} {bad} {of}"),
            }
        }
    })
}

fn read_as(word: u32, name: &str, limit: u8) -> Result<Block, Refused> {
    match [Offset::A, Offset::B, Offset::C, Offset::Cx, Offset::D].into_iter().find(|&it| offset_name(it) == name) {
        Some(offset) => rds::correct(word, offset, limit),
        None => rds::correct_third(word, limit),
    }
}

fn main() {
    for line in std::io::stdin().lines() {
        let line = line.expect("a line of text");
        let asked = line.split(" = ").next().unwrap_or_default();
        let words: Vec<&str> = asked.split_whitespace().collect();
        let answer = answer(words[0], &words[1..]).unwrap_or_else(|it| format!("refused {} {}", it.number, it.name));
        println!("{asked} = {answer}");
    }
}
