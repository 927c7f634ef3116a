//! Made rules and flows. Both favour a few values, so that flows often stand at
//! the ends of ranges.

use super::random::Random;
use crate::rule::{encode, flow_of, ranges, Flow, Range, GREATEST};
use std::collections::HashSet;

const PROTOCOLS: [u32; 9] = [0, 1, 6, 17, 47, 127, 128, 254, 255];
const PORTS: [u32; 12] = [0, 1, 22, 80, 255, 256, 1023, 1024, 32767, 32768, 65534, 65535];
const ADDRESSES: [u32; 10] =
    [0, 1, 0x0a00_0000, 0x0a00_00ff, 0x0aff_ffff, 0x7fff_ffff, 0x8000_0000, 0xc0a8_0101, 0xffff_fffe, u32::MAX];

/// For each of a rule's five numbers: favoured values, greatest value.
const NUMBERS: [(&[u32], u32); 5] = [
    (&PROTOCOLS, GREATEST[0]),
    (&ADDRESSES, GREATEST[1]),
    (&PORTS, GREATEST[2]),
    (&ADDRESSES, GREATEST[3]),
    (&PORTS, GREATEST[4]),
];

fn any_number(random: &mut Random, favoured: &[u32], most: u32) -> u32 {
    let chosen = random.pick(favoured);
    match random.below(8) {
        0 => random.next() as u32 & most,
        1 => chosen.saturating_sub(1),
        2 => chosen.saturating_add(1).min(most),
        _ => chosen,
    }
}

fn any_range(random: &mut Random, favoured: &[u32], most: u32) -> Range {
    let one = any_number(random, favoured, most);
    let other = any_number(random, favoured, most);
    match random.below(4) {
        0 => Range { low: 0, high: most },
        1 => Range { low: one, high: one },
        _ => Range { low: one.min(other), high: one.max(other) },
    }
}

fn any_rule(random: &mut Random) -> Vec<u8> {
    let ranges = NUMBERS.map(|(favoured, most)| any_range(random, favoured, most));
    encode(random.one_in(2), &ranges)
}

/// A rule that differs from the given one in one thing only.
fn sibling(random: &mut Random, rule: &[u8]) -> Vec<u8> {
    let mut ranges = ranges(rule);
    let permit = rule[0] == 1;
    let which = random.below(6);
    if which == 5 {
        return encode(!permit, &ranges);
    }
    let (favoured, most) = NUMBERS[which];
    ranges[which] = any_range(random, favoured, most);
    encode(permit, &ranges)
}

/// So many different rules, some of them nearly equal.
pub fn catalogue(random: &mut Random, count: usize) -> Vec<Vec<u8>> {
    let mut known = HashSet::new();
    let mut rules: Vec<Vec<u8>> = Vec::new();
    while rules.len() < count {
        let near = random.below(rules.len() + 1);
        let rule = match rules.get(near) {
            Some(earlier) if random.one_in(3) => sibling(random, earlier),
            _ => any_rule(random),
        };
        if known.insert(rule.clone()) {
            rules.push(rule);
        }
    }
    rules
}

pub fn any_flow(random: &mut Random) -> Flow {
    flow_of(NUMBERS.map(|(favoured, most)| any_number(random, favoured, most)))
}

fn number_near(random: &mut Random, range: Range, most: u32) -> u32 {
    match random.below(16) {
        0 => range.low.saturating_sub(1),
        1 => range.high.saturating_add(1).min(most),
        2 => range.low + ((range.high - range.low) / 2),
        even if even % 2 == 0 => range.low,
        _ => range.high,
    }
}

pub fn flow_near(random: &mut Random, rule: &[u8]) -> Flow {
    let ranges = ranges(rule);
    let mut which = 0;
    flow_of(NUMBERS.map(|(_, most)| {
        which += 1;
        number_near(random, ranges[which - 1], most)
    }))
}
