//! What all parts of the file share: limits, sizes, tags, a list's bytes, a field's
//! head, and a refusal.

pub const MOST_RULES: usize = 1024;
pub const MOST_IN_POLICY: usize = 512;
pub const MOST_COMMANDS: usize = 2048;
pub const RULE_BYTES: usize = 27;
pub const COMMAND_BYTES: usize = 5;
pub const HEAD_BYTES: usize = 3;

pub const TAG_RULE: u8 = 1;
pub const TAG_INITIAL: u8 = 2;
pub const TAG_TARGET: u8 = 3;
pub const TAG_KEEP: u8 = 4;
pub const TAG_SCRIPT: u8 = 5;
pub const TAG_DEFAULT: u8 = 6;

/// A file or a call turned away: the number of the table and its position.
#[derive(Clone, Copy, Debug, PartialEq, Eq)]
pub struct Refusal {
    pub number: u8,
    pub position: usize,
}

/// The rule numbers of a list's value.
pub fn numbers(value: &[u8]) -> Vec<u16> {
    value.chunks_exact(2).map(|pair| u16::from_be_bytes([pair[0], pair[1]])).collect()
}

/// The value of a list of rule numbers.
pub fn list_value(list: &[u16]) -> Vec<u8> {
    list.iter().flat_map(|number| number.to_be_bytes()).collect()
}

/// Adds one field to `out`.
pub fn add_field(out: &mut Vec<u8>, tag: u8, value: &[u8]) {
    out.push(tag);
    out.extend_from_slice(&(value.len() as u16).to_be_bytes());
    out.extend_from_slice(value);
}
