//! Rules and flows: their numbers, their bytes, and whether a rule matches a flow.

use crate::format::RULE_BYTES;

/// The five numbers of a flow.
#[derive(Clone, Copy, Debug, PartialEq, Eq)]
pub struct Flow {
    pub protocol: u8,
    pub source: u32,
    pub source_port: u16,
    pub destination: u32,
    pub destination_port: u16,
}

/// The bytes of a flow, where many are asked about at once.
pub const FLOW_BYTES: usize = 13;

impl Flow {
    /// The five numbers one after another, big-endian.
    pub fn bytes(&self) -> [u8; FLOW_BYTES] {
        let mut bytes = [0; FLOW_BYTES];
        bytes[0] = self.protocol;
        bytes[1..5].copy_from_slice(&self.source.to_be_bytes());
        bytes[5..7].copy_from_slice(&self.source_port.to_be_bytes());
        bytes[7..11].copy_from_slice(&self.destination.to_be_bytes());
        bytes[11..].copy_from_slice(&self.destination_port.to_be_bytes());
        bytes
    }

    pub fn of_bytes(bytes: &[u8]) -> Flow {
        let bytes: &[u8; FLOW_BYTES] = bytes.try_into().expect("the bytes of a flow");
        let two = |at: usize| u16::from_be_bytes([bytes[at], bytes[at + 1]]);
        let four = |at: usize| u32::from_be_bytes([bytes[at], bytes[at + 1], bytes[at + 2], bytes[at + 3]]);
        Flow {
            protocol: bytes[0],
            source: four(1),
            source_port: two(5),
            destination: four(7),
            destination_port: two(11),
        }
    }
}

/// The flow of these five numbers.
pub fn flow_of(numbers: [u32; 5]) -> Flow {
    Flow {
        protocol: numbers[0] as u8,
        source: numbers[1],
        source_port: numbers[2] as u16,
        destination: numbers[3],
        destination_port: numbers[4] as u16,
    }
}

/// The inclusive range of one of the five numbers.
#[derive(Clone, Copy, Debug, PartialEq, Eq)]
pub struct Range {
    pub low: u32,
    pub high: u32,
}

impl Range {
    fn holds(self, number: u32) -> bool {
        self.low <= number && number <= self.high
    }
}

/// For each of the five numbers, its bytes and the greatest that they hold.
const WIDTHS: [usize; 5] = [1, 4, 2, 4, 2];
pub const GREATEST: [u32; 5] = [255, u32::MAX, 65535, u32::MAX, 65535];

/// The ranges that hold every number.
pub fn full_ranges() -> [Range; 5] {
    GREATEST.map(|high| Range { low: 0, high })
}

type RuleBytes = [u8; RULE_BYTES];

fn whole(rule: &[u8]) -> &RuleBytes {
    rule.try_into().expect("the bytes of a rule")
}

fn one_byte(rule: &RuleBytes, start: usize) -> Range {
    Range { low: u32::from(rule[start]), high: u32::from(rule[start + 1]) }
}

fn two_bytes(rule: &RuleBytes, start: usize) -> Range {
    let number = |at: usize| u32::from(u16::from_be_bytes([rule[at], rule[at + 1]]));
    Range { low: number(start), high: number(start + 2) }
}

fn four_bytes(rule: &RuleBytes, start: usize) -> Range {
    let number = |at: usize| u32::from_be_bytes([rule[at], rule[at + 1], rule[at + 2], rule[at + 3]]);
    Range { low: number(start), high: number(start + 4) }
}

/// The five ranges of a rule's 27 bytes, in the order of the file.
pub fn ranges(rule: &[u8]) -> [Range; 5] {
    let rule = whole(rule);
    [one_byte(rule, 1), four_bytes(rule, 3), two_bytes(rule, 11), four_bytes(rule, 15), two_bytes(rule, 23)]
}

/// Whether 27 bytes are a rule: action 0 or 1, no low above its high.
pub fn is_rule(value: &[u8]) -> bool {
    value[0] <= 1 && ranges(value).iter().all(|range| range.low <= range.high)
}

pub fn matches(rule: &[u8], flow: &Flow) -> bool {
    let rule = whole(rule);
    one_byte(rule, 1).holds(u32::from(flow.protocol))
        && four_bytes(rule, 3).holds(flow.source)
        && two_bytes(rule, 11).holds(u32::from(flow.source_port))
        && four_bytes(rule, 15).holds(flow.destination)
        && two_bytes(rule, 23).holds(u32::from(flow.destination_port))
}

/// The 27 bytes of a rule.
pub fn encode(permit: bool, ranges: &[Range; 5]) -> Vec<u8> {
    let mut rule = vec![u8::from(permit)];
    for (range, width) in ranges.iter().zip(WIDTHS) {
        rule.extend_from_slice(&range.low.to_be_bytes()[4 - width..]);
        rule.extend_from_slice(&range.high.to_be_bytes()[4 - width..]);
    }
    rule
}

/// A rule that differs for each number: it permits one source address.
pub fn plain_rule(number: u16) -> Vec<u8> {
    let mut ranges = full_ranges();
    let source = u32::from(number);
    ranges[1] = Range { low: source, high: source };
    encode(true, &ranges)
}
