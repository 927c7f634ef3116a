//! The commands of both editing languages and their five bytes in a script.

use crate::format::{add_field, COMMAND_BYTES, HEAD_BYTES, TAG_SCRIPT};

/// `i` and `j` are places counted from 1, `r` is a rule number.
#[derive(Clone, Copy, Debug, PartialEq, Eq)]
pub enum Command {
    App { r: u16 },
    DelRule { r: u16 },
    Ins { i: u16, r: u16 },
    DelPlace { i: u16 },
    Mov { i: u16, j: u16 },
}

impl Command {
    /// The command of five bytes in a script of the given type, if it is one.
    pub fn decode(kind: u8, bytes: &[u8]) -> Option<Command> {
        let first = u16::from_be_bytes([bytes[1], bytes[2]]);
        let second = u16::from_be_bytes([bytes[3], bytes[4]]);
        match (kind, bytes[0], second) {
            (1, 1, 0) => Some(Command::App { r: first }),
            (1, 2, 0) => Some(Command::DelRule { r: first }),
            (2, 3, _) => Some(Command::Ins { i: first, r: second }),
            (2, 4, 0) => Some(Command::DelPlace { i: first }),
            (2, 5, _) => Some(Command::Mov { i: first, j: second }),
            _ => None,
        }
    }

    pub fn encode(self) -> [u8; COMMAND_BYTES] {
        let (code, first, second) = match self {
            Command::App { r } => (1, r, 0),
            Command::DelRule { r } => (2, r, 0),
            Command::Ins { i, r } => (3, i, r),
            Command::DelPlace { i } => (4, i, 0),
            Command::Mov { i, j } => (5, i, j),
        };
        let (first, second) = (first.to_be_bytes(), second.to_be_bytes());
        [code, first[0], first[1], second[0], second[1]]
    }
}

/// The commands of a script's value that has passed its tests.
pub fn commands_of(value: &[u8]) -> Vec<Command> {
    let kind = value[0];
    let bytes = value[1..].chunks_exact(COMMAND_BYTES);
    bytes.map(|bytes| Command::decode(kind, bytes).expect("a tested script")).collect()
}

/// The value of a script field.
pub fn script_value(kind: u8, commands: &[Command]) -> Vec<u8> {
    let mut value = Vec::with_capacity(1 + COMMAND_BYTES * commands.len());
    value.push(kind);
    for command in commands {
        value.extend_from_slice(&command.encode());
    }
    value
}

/// A whole script field: tag, length, value.
pub fn script_field(kind: u8, commands: &[Command]) -> Vec<u8> {
    let value = script_value(kind, commands);
    let mut field = Vec::with_capacity(HEAD_BYTES + value.len());
    add_field(&mut field, TAG_SCRIPT, &value);
    field
}

#[cfg(test)]
mod tests {
    use super::*;

    #[test]
    fn a_command_is_read_back() {
        let all = [
            (1, Command::App { r: 258 }),
            (1, Command::DelRule { r: 3 }),
            (2, Command::Ins { i: 1, r: 2 }),
            (2, Command::DelPlace { i: 65535 }),
            (2, Command::Mov { i: 7, j: 513 }),
        ];
        for (kind, command) in all {
            assert_eq!(Command::decode(kind, &command.encode()), Some(command));
            assert_eq!(Command::decode(3 - kind, &command.encode()), None);
        }
    }

    #[test]
    fn unused_numbers_are_zero() {
        assert_eq!(Command::decode(1, &[1, 0, 1, 0, 1]), None);
        assert_eq!(Command::decode(1, &[2, 0, 1, 1, 0]), None);
        assert_eq!(Command::decode(2, &[4, 0, 1, 0, 1]), None);
        assert_eq!(Command::decode(2, &[6, 0, 0, 0, 0]), None);
    }
}
