//! A deterministic maker of inputs: valid, damaged and adversarial files, texts and
//! listings, and flows. The same seed and index always give the same bytes.

mod damage;
mod draft;
mod limits;
mod lines;
mod listings;
mod random;
mod rule_lines;
mod rules;
mod scripts;
mod texts;
mod values;

use crate::commands::commands_of;
use crate::file::check_script;
use crate::rule::{flow_of, Flow};
use damage::Field;
use draft::Draft;
use random::Random;

pub use texts::MadeText;
pub use values::MadeValues;

const FLOWS: u64 = 0x666c_6f77;
const VALUES: u64 = 0x7661_6c75;
const ROOMS: u64 = 0x726f_6f6d;
const CUTS: u64 = 0x6375_7473;
const TEXTS: u64 = 0x7465_7874;
const LISTINGS: u64 = 0x6c69_7374;

/// How many texts an input has, and how many listings.
pub const TEXTS_OF_INPUT: usize = 4;
pub const LISTINGS_OF_INPUT: usize = 4;

/// The input with this index.
pub fn make(seed: u64, index: u64) -> Vec<u8> {
    let random = &mut Random::new(seed, index);
    match random.below(100) {
        0..=54 => damage::join(&draft_with_script(random).fields()),
        55..=82 => damaged_fields(random),
        83..=94 => damaged_bytes(random),
        95..=98 => damage::join(&at_the_limits(random)),
        _ => random.bytes(64),
    }
}

fn draft_with_script(random: &mut Random) -> Draft {
    let mut draft = Draft::new(random);
    draft.script = scripts::any(random, &draft);
    draft
}

/// One damage made for one refusal; sometimes a second one, to test which is met first.
fn damaged(random: &mut Random) -> Vec<Field> {
    let mut fields = draft_with_script(random).fields();
    damage::one_field(random, &mut fields);
    if random.one_in(4) {
        damage::one_field(random, &mut fields);
    }
    fields
}

fn damaged_fields(random: &mut Random) -> Vec<u8> {
    let mut bytes = damage::join(&damaged(random));
    if random.one_in(8) {
        damage::cut(random, &mut bytes);
    }
    bytes
}

/// Damage that knows nothing of fields.
fn damaged_bytes(random: &mut Random) -> Vec<u8> {
    let mut bytes = damage::join(&draft_with_script(random).fields());
    for _ in 0..=random.below(3) {
        damage::any_bytes(random, &mut bytes);
    }
    bytes
}

/// Files at and just over the limits of rules, numbers and commands.
fn at_the_limits(random: &mut Random) -> Vec<Field> {
    let over = random.one_in(2);
    match random.below(4) {
        0 | 1 => limits::full_catalogue(random, over),
        2 => limits::full_policies(random, over),
        _ => limits::full_script(random, over),
    }
}

/// The field values with this index, for the entries that take lists.
pub fn values(seed: u64, index: u64) -> MadeValues {
    let random = &mut Random::new(seed ^ VALUES, index);
    let fields = match random.below(100) {
        0..=49 => draft_with_script(random).fields(),
        50..=95 => damaged(random),
        _ => at_the_limits(random),
    };
    values::gather(random, &fields)
}

/// The texts with this index; the first is that of the given script, if it is one.
pub fn texts(seed: u64, index: u64, script: &[u8]) -> [MadeText; TEXTS_OF_INPUT] {
    let random = &mut Random::new(seed ^ TEXTS, index);
    let mut made = [(); TEXTS_OF_INPUT].map(|()| texts::any(random));
    if check_script(script).is_ok() {
        made[0] = texts::written(random, script[0], &commands_of(script));
    }
    made
}

/// The listings with this index.
pub fn listings(seed: u64, index: u64) -> [Vec<u8>; LISTINGS_OF_INPUT] {
    let random = &mut Random::new(seed ^ LISTINGS, index);
    [(); LISTINGS_OF_INPUT].map(|()| listings::any(random))
}

/// A maker of rooms for what is written.
pub struct RoomMaker(Random);

impl RoomMaker {
    /// A room about as large as needed, if that is known.
    pub fn room(&mut self, needed: Option<usize>) -> usize {
        values::any_room(&mut self.0, needed.unwrap_or(values::ROOM_OF_REFUSED))
    }
}

/// The maker of rooms with this index.
pub fn rooms(seed: u64, index: u64) -> RoomMaker {
    RoomMaker(Random::new(seed ^ ROOMS, index))
}

/// Flows as bytes, sometimes cut so that the last isn't whole.
pub fn flow_bytes(flows: &[Flow], seed: u64, index: u64) -> Vec<u8> {
    let random = &mut Random::new(seed ^ CUTS, index);
    let mut bytes: Vec<u8> = flows.iter().flat_map(Flow::bytes).collect();
    if random.one_in(8) {
        bytes.truncate(random.below(bytes.len()));
    }
    bytes
}

/// So many different rules of 27 bytes.
pub fn catalogue(seed: u64, count: usize) -> Vec<Vec<u8>> {
    rules::catalogue(&mut Random::new(seed, 0), count)
}

/// So many flows of any numbers.
pub fn any_flows(seed: u64, count: usize) -> Vec<Flow> {
    let random = &mut Random::new(seed ^ FLOWS, 0);
    let mut word = || random.next() as u32;
    (0..count).map(|_| flow_of([word(), word(), word(), word(), word()])).collect()
}

pub fn shuffle(seed: u64, list: &mut [u16]) {
    Random::new(seed, 0).shuffle(list);
}

/// The flow with this index, near the values that the made rules favour.
pub fn flow(seed: u64, index: u64) -> Flow {
    rules::any_flow(&mut Random::new(seed ^ FLOWS, index))
}

/// The flow with this index at or next to the range ends of one of the rules.
pub fn flow_near(rules: &[&[u8]], seed: u64, index: u64) -> Flow {
    let random = &mut Random::new(seed ^ FLOWS, index);
    if rules.is_empty() {
        return rules::any_flow(random);
    }
    let rule = rules[random.below(rules.len())];
    rules::flow_near(random, rule)
}

#[cfg(test)]
mod tests {
    use super::*;
    use crate::console::text_script;
    use crate::file::read;
    use crate::iptables::from_iptables;
    use crate::text::{judge_text, plan_text};
    use std::collections::HashMap;

    #[test]
    fn the_same_index_gives_the_same_bytes() {
        for index in 0..200 {
            assert_eq!(make(5, index), make(5, index));
            assert_eq!(flow(5, index), flow(5, index));
            assert_eq!(listings(5, index), listings(5, index));
        }
    }

    #[test]
    fn every_outcome_occurs_often() {
        let mut counts: HashMap<String, usize> = HashMap::new();
        for index in 0..4000 {
            let text = judge_text(&make(1, index));
            let outcome = text.split_whitespace().take(2).collect::<Vec<_>>().join(" ");
            *counts.entry(outcome).or_default() += 1;
        }
        let refusals = (1..=12).chain([50]).map(|number| format!("refused {number}"));
        let verdicts = (20..=24).chain(30..=32).map(|number| format!("verdict {number}"));
        for outcome in refusals.chain(verdicts) {
            let count = counts.get(&outcome).copied().unwrap_or(0);
            assert!(count >= 20, "{outcome} occurs {count} times");
        }
    }

    #[test]
    fn every_outcome_of_a_text_occurs_often() {
        let mut counts: HashMap<u8, usize> = HashMap::new();
        let (mut longest, mut after_the_most) = (0, 0);
        for made in (0..4000).flat_map(|index| texts(1, index, &[])) {
            let answer = text_script(&made.text, made.kind, made.maker);
            let outcome = answer.as_ref().map_or_else(|refusal| refusal.number, |_| 0);
            longest += usize::from(answer.as_ref().is_ok_and(|field| field.len() == 10_244));
            after_the_most +=
                usize::from(matches!(answer, Err(refusal) if refusal.position == 2049 && refusal.number > 50));
            *counts.entry(outcome).or_default() += 1;
        }
        for outcome in [0, 4, 11, 55, 56] {
            let count = counts.get(&outcome).copied().unwrap_or(0);
            assert!(count >= 50, "{outcome} occurs {count} times");
        }
        assert!(longest >= 20 && after_the_most >= 20, "{longest} and {after_the_most}");
    }

    #[test]
    fn every_outcome_of_a_listing_occurs_often() {
        let mut counts: HashMap<(u8, bool), usize> = HashMap::new();
        let (mut shorter, mut long) = (0, 0);
        for listing in (0..4000).flat_map(|index| listings(1, index)) {
            let outcome = match from_iptables(&listing) {
                Ok(file) => {
                    let lines = listing.split(|&byte| byte == b'\n').filter(|line| line.starts_with(b"-A FORWARD "));
                    shorter += usize::from(read(&file).unwrap().rules.len() < lines.count());
                    (0, true)
                }
                Err(refusal) => (refusal.number, refusal.position == 0),
            };
            long += usize::from(listing.len() > 65536);
            *counts.entry(outcome).or_default() += 1;
        }
        for outcome in [(0, true), (4, true), (7, true), (57, true), (57, false), (58, false)] {
            let count = counts.get(&outcome).copied().unwrap_or(0);
            assert!(count >= 40, "{outcome:?} occurs {count} times");
        }
        assert!(shorter >= 1000 && long >= 40, "{shorter} and {long}");
    }

    #[test]
    fn some_files_are_at_the_limits() {
        let texts: Vec<String> = (0..4000).map(|index| plan_text(&make(1, index))).collect();
        assert!(texts.iter().any(|text| text.starts_with("type 1 initial 512 target 512 ")));
        assert!(texts.iter().any(|text| text.starts_with("refused 7 at 30720")));
    }
}
