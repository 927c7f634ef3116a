//! Damage to files: each refusal has a way to bring it about, and some damage
//! knows nothing of fields.

use super::random::Random;
use crate::format::{HEAD_BYTES, RULE_BYTES, TAG_DEFAULT, TAG_INITIAL, TAG_KEEP, TAG_RULE, TAG_SCRIPT, TAG_TARGET};

/// A field before it is laid out; its head may say another length.
#[derive(Clone)]
pub struct Field {
    pub tag: u8,
    pub said_length: Option<u16>,
    pub value: Vec<u8>,
}

impl Field {
    pub fn new(tag: u8, value: Vec<u8>) -> Field {
        Field { tag, said_length: None, value }
    }
}

pub fn join(fields: &[Field]) -> Vec<u8> {
    let mut bytes = Vec::new();
    for field in fields {
        let length = field.said_length.unwrap_or(field.value.len() as u16);
        bytes.push(field.tag);
        bytes.extend_from_slice(&length.to_be_bytes());
        bytes.extend_from_slice(&field.value);
    }
    bytes
}

const ODD_LENGTHS: [usize; 15] = [0, 1, 2, 5, 6, 26, 27, 28, 1024, 1025, 1026, 10241, 10242, 10246, 65535];
const ODD_TAGS: [u8; 10] = [0, 1, 2, 3, 4, 5, 6, 7, 128, 255];

/// Damages one field, or their order.
pub fn one_field(random: &mut Random, fields: &mut Vec<Field>) {
    match random.below(21) {
        0 => short_value(random, fields),
        1 => other_tag(random, fields),
        2 => other_order(random, fields),
        3 => fields.truncate(random.below(fields.len() + 1)),
        4..=6 => other_length(random, fields),
        7 | 8 => said_length(random, fields),
        9 => bad_rule(random, fields),
        10 => equal_rule(random, fields),
        11 => outside_number(random, fields),
        12 | 13 => number_twice(random, fields),
        14 | 15 => bad_keep(random, fields),
        16..=18 => bad_default(random, fields),
        _ => bad_script(random, fields),
    }
}

fn any_field(random: &mut Random, fields: &[Field]) -> Option<usize> {
    let last = fields.len().checked_sub(1)?;
    // The last fields are the interesting ones.
    let first = if random.one_in(3) { 0 } else { last.saturating_sub(3) };
    Some(random.between(first, last))
}

/// Index of a field with one of the tags.
fn tagged(random: &mut Random, fields: &[Field], tags: &[u8]) -> Option<usize> {
    let found: Vec<usize> = (0..fields.len()).filter(|&at| tags.contains(&fields[at].tag)).collect();
    if found.is_empty() {
        None
    } else {
        Some(random.pick(&found))
    }
}

fn short_value(random: &mut Random, fields: &mut Vec<Field>) {
    let Some(at) = any_field(random, fields) else { return };
    let field = &mut fields[at];
    field.said_length = Some(field.value.len() as u16);
    let left = random.between(0, field.value.len());
    field.value.truncate(left);
    if random.one_in(2) {
        fields.truncate(at + 1);
    }
}

fn other_tag(random: &mut Random, fields: &mut [Field]) {
    if let Some(at) = any_field(random, fields) {
        fields[at].tag = random.pick(&ODD_TAGS);
    }
}

/// A field doubled, left out, or swapped with another.
fn other_order(random: &mut Random, fields: &mut Vec<Field>) {
    let (Some(at), Some(other)) = (any_field(random, fields), any_field(random, fields)) else { return };
    match random.below(3) {
        0 => fields.insert(at, fields[other].clone()),
        1 => drop(fields.remove(at)),
        _ => fields.swap(at, other),
    }
}

/// A field whose value really has an odd length.
fn other_length(random: &mut Random, fields: &mut [Field]) {
    let Some(at) = any_field(random, fields) else { return };
    let value = &mut fields[at].value;
    let near = [value.len() + 1, value.len() + 2, value.len().saturating_sub(1)];
    let length = if random.one_in(2) { random.pick(&near) } else { random.pick(&ODD_LENGTHS) };
    value.resize(length, 0);
}

/// A field whose head says an odd length.
fn said_length(random: &mut Random, fields: &mut [Field]) {
    if let Some(at) = any_field(random, fields) {
        fields[at].said_length = Some(random.pick(&ODD_LENGTHS) as u16);
    }
}

/// Start and width of a rule's five ranges.
const RANGES: [(usize, usize); 5] = [(1, 1), (3, 4), (11, 2), (15, 4), (23, 2)];

fn bad_rule(random: &mut Random, fields: &mut [Field]) {
    let Some(at) = tagged(random, fields, &[TAG_RULE]) else { return };
    let value = &mut fields[at].value;
    if value.len() != RULE_BYTES {
        return;
    }
    if random.one_in(3) {
        value[0] = random.pick(&[2, 3, 128, 255]);
        return;
    }
    // Only the last byte of the low is greater: equal high bytes must not hide it.
    let (start, width) = random.pick(&RANGES);
    let high = value[start + width..start + 2 * width].to_vec();
    value[start..start + width].copy_from_slice(&high);
    let (low_end, high_end) = (start + width - 1, start + 2 * width - 1);
    let smaller = value[high_end].min(254);
    value[high_end] = smaller;
    value[low_end] = smaller + 1;
}

/// A rule put in again, sometimes one that is wrong as well.
fn equal_rule(random: &mut Random, fields: &mut Vec<Field>) {
    let Some(from) = tagged(random, fields, &[TAG_RULE]) else { return };
    let rules = fields.iter().take_while(|field| field.tag == TAG_RULE).count();
    let mut copy = fields[from].clone();
    if random.one_in(8) && !copy.value.is_empty() {
        copy.value[0] ^= random.pick(&[1, 2]);
    }
    let at = random.between(from + 1, rules.max(from + 1));
    fields.insert(at, copy);
}

fn put_number(random: &mut Random, value: &mut Vec<u8>, number: u16) {
    let [high, low] = number.to_be_bytes();
    let at = 2 * random.between(0, value.len() / 2);
    if random.one_in(2) && at + 2 <= value.len() {
        value[at..at + 2].copy_from_slice(&[high, low]);
    } else {
        value.splice(at..at, [high, low]);
    }
}

fn any_number_of(random: &mut Random, value: &[u8]) -> Option<u16> {
    if value.len() < 2 {
        return None;
    }
    let at = 2 * random.below(value.len() / 2);
    Some(u16::from_be_bytes([value[at], value[at + 1]]))
}

fn outside_number(random: &mut Random, fields: &mut [Field]) {
    let rules = fields.iter().filter(|field| field.tag == TAG_RULE).count() as u16;
    let Some(at) = tagged(random, fields, &[TAG_INITIAL, TAG_TARGET]) else { return };
    let number = random.pick(&[rules, rules, rules + 1, 1024, 65535]);
    put_number(random, &mut fields[at].value, number);
}

fn number_twice(random: &mut Random, fields: &mut [Field]) {
    let Some(at) = tagged(random, fields, &[TAG_INITIAL, TAG_TARGET]) else { return };
    let value = &mut fields[at].value;
    if let Some(number) = any_number_of(random, value) {
        put_number(random, value, number);
    }
}

/// A keep list made wrong, or one that may be wrong.
fn bad_keep(random: &mut Random, fields: &mut Vec<Field>) {
    let Some(target) = fields.iter().position(|field| field.tag == TAG_TARGET) else { return };
    let has_default = fields.get(target + 1).is_some_and(|field| field.tag == TAG_DEFAULT);
    let at = target + 1 + usize::from(has_default);
    if fields.get(at).is_none_or(|field| field.tag != TAG_KEEP) {
        let value = fields[random.between(target.saturating_sub(1), target)].value.clone();
        fields.insert(at, Field::new(TAG_KEEP, value));
    }
    let value = &mut fields[at].value;
    match random.below(4) {
        0 => put_number(random, value, 65535),
        1 => {
            let number = random.below(9) as u16;
            put_number(random, value, number);
        }
        2 if value.len() >= 2 => value.rotate_left(2),
        _ => {
            if let Some(number) = any_number_of(random, value) {
                put_number(random, value, number);
            }
        }
    }
}

/// A default with another value, of another length, out of its place, twice, or cut off.
fn bad_default(random: &mut Random, fields: &mut Vec<Field>) {
    fields.retain(|field| field.tag != TAG_DEFAULT);
    let Some(target) = fields.iter().position(|field| field.tag == TAG_TARGET) else { return };
    let mut field = Field::new(TAG_DEFAULT, vec![1]);
    let mut at = target + 1;
    match random.below(8) {
        0..=2 => field.value[0] = random.pick(&[0, 0, 2, 2, 3, 128, 255]),
        3 => field.value.resize(random.pick(&[0, 2, 2, 27]), 1),
        4 => at = random.between(at, fields.len()),
        5 => at = random.pick(&[0, target.saturating_sub(1), target]),
        6 => fields.insert(at, field.clone()),
        _ => {
            field.said_length = Some(1);
            field.value.clear();
            fields.truncate(at);
        }
    }
    fields.insert(at, field);
}

fn bad_script(random: &mut Random, fields: &mut Vec<Field>) {
    if tagged(random, fields, &[TAG_SCRIPT]).is_none() {
        fields.push(Field::new(TAG_SCRIPT, vec![random.below(4) as u8]));
    }
    let at = tagged(random, fields, &[TAG_SCRIPT]).expect("a script field");
    let value = &mut fields[at].value;
    if value.len() < 6 || random.one_in(4) {
        if let Some(kind) = value.first_mut() {
            *kind = random.pick(&[0, 1, 2, 3, 255]);
        }
        return;
    }
    let start = 1 + 5 * random.below((value.len() - 1) / 5);
    match random.below(4) {
        0 => value[start] = random.pick(&[0, 1, 2, 3, 4, 5, 6, 255]),
        1 => value[start + 3] = random.pick(&[1, 128]),
        _ => value[start + 4] = random.pick(&[1, 128]),
    }
}

// ---- Damage to bytes ----

/// Cuts the file off, often near a head.
pub fn cut(random: &mut Random, bytes: &mut Vec<u8>) {
    let length = bytes.len();
    let left = match random.below(3) {
        0 => length.saturating_sub(random.between(1, 4)),
        1 => length.min(random.below(12) * (HEAD_BYTES + RULE_BYTES) + random.below(4)),
        _ => random.between(0, length),
    };
    bytes.truncate(left);
}

pub fn any_bytes(random: &mut Random, bytes: &mut Vec<u8>) {
    let tail = random.bytes(6);
    match random.below(8) {
        0 | 1 => cut(random, bytes),
        2 => bytes.extend(tail),
        3 => bytes.splice(0..0, tail).for_each(drop),
        _ if bytes.is_empty() => {}
        4 => drop(bytes.remove(random.below(bytes.len()))),
        5 => bytes.insert(random.below(bytes.len()), random.below(6) as u8),
        _ => flip(random, bytes),
    }
}

/// Changes a bit or a byte, half of the time in the last ones.
fn flip(random: &mut Random, bytes: &mut [u8]) {
    let last = bytes.len() - 1;
    let first = if random.one_in(2) { last.saturating_sub(60) } else { 0 };
    let at = random.between(first, last);
    bytes[at] = match random.below(3) {
        0 => random.pick(&[0, 1, 2, 255]),
        1 => random.next() as u8,
        _ => bytes[at] ^ (1 << random.below(8)),
    };
}
