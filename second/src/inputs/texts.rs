//! Made texts for the reader of console text: written, damaged in every way that it
//! must tell, at the limit of commands, and meaningless ones.

use super::lines::{cut_short, join, other_blanks, other_byte, other_number, other_words, Line};
use super::random::Random;
use crate::commands::Command;
use crate::console::{text_of, Maker};
use crate::format::MOST_COMMANDS;

/// A text, and the type and the maker that the reader is told.
pub struct MadeText {
    pub text: Vec<u8>,
    pub kind: u8,
    pub maker: Maker,
}

/// Numbers with each count of digits, and both ends.
const NUMBERS: [u16; 14] = [0, 1, 2, 3, 9, 10, 99, 100, 999, 1000, 9999, 10000, 65534, 65535];

/// Numbers about the greatest, and such as are small again when they are counted in 16, 32 or 64 bits.
const ODD_NUMBERS: [&str; 16] = [
    "65535",
    "65536",
    "65536",
    "65537",
    "65538",
    "99999",
    "131072",
    "655360",
    "4294967295",
    "4294967296",
    "4294967297",
    "18446744073709551615",
    "18446744073709551616",
    "18446744073709551617",
    "999999999999999999999999999999",
    "100000000000000000000000000001",
];

const TOKENS: [&str; 22] = [
    "app",
    "del",
    "ins",
    "mov",
    "move",
    "before",
    " ",
    " ",
    " ",
    " ",
    "\n",
    "\n",
    "\n",
    "0",
    "1",
    "7",
    "12",
    "65536",
    "\r",
    "+",
    "before 1\n",
    "del 3\n",
];

const WORDS: [&str; 10] = ["app", "del", "ins", "mov", "move", "before", "after", "Del", "dele", ""];

fn any_number(random: &mut Random) -> u16 {
    match random.below(3) {
        0 => random.next() as u16,
        1 => random.pick(&NUMBERS),
        _ => random.below(12) as u16,
    }
}

fn any_command(random: &mut Random, kind: u8) -> Command {
    let (first, second) = (any_number(random), any_number(random));
    match (kind, random.below(4)) {
        (1, 0 | 1) => Command::App { r: first },
        (1, _) => Command::DelRule { r: first },
        (_, 0) => Command::Ins { i: first, r: second },
        (_, 1) => Command::DelPlace { i: first },
        _ => Command::Mov { i: first, j: second },
    }
}

fn line_of(command: Command, maker: Maker) -> Line {
    let mut line = text_of(&[command], maker);
    line.pop();
    line
}

fn any_maker(random: &mut Random) -> Maker {
    random.pick(&Maker::BOTH)
}

fn other_maker(maker: Maker) -> Maker {
    match maker {
        Maker::A => Maker::B,
        Maker::B => Maker::A,
    }
}

// ---- Damage to a line ----

/// A move of B that may leave the rule where it is, also at the greatest numbers.
fn staying_move(random: &mut Random) -> Line {
    let i = u64::from(any_number(random));
    format!("move {i} before {}", i + random.pick(&[0, 0, 1, 1, 2])).into_bytes()
}

/// The line of another maker, of another type, or of neither.
fn other_line(random: &mut Random, kind: u8, maker: Maker) -> Line {
    let moved = Command::Mov { i: any_number(random), j: any_number(random) };
    match random.below(4) {
        0 => line_of(moved, other_maker(maker)),
        1 => line_of(any_command(random, 3 - kind), maker),
        2 => staying_move(random),
        _ => Vec::new(),
    }
}

// ---- Whole texts ----

fn damage(random: &mut Random, lines: &mut Vec<Line>, kind: u8, maker: Maker) {
    let at = random.between(0, lines.len());
    if at == lines.len() || random.one_in(8) {
        lines.insert(at, other_line(random, kind, maker));
        return;
    }
    match random.below(10) {
        0..=3 => other_number(random, &mut lines[at], &ODD_NUMBERS),
        4 | 5 => other_blanks(random, &mut lines[at]),
        6 => other_words(random, &mut lines[at], &WORDS),
        7 => other_byte(random, &mut lines[at]),
        _ => lines[at] = other_line(random, kind, maker),
    }
}

/// About as many lines as a script can have, with something behind them at times.
fn lengthened(random: &mut Random, lines: &mut Vec<Line>, kind: u8, maker: Maker) {
    let shortest = random.one_in(2);
    let count = random.pick(&[MOST_COMMANDS - 1, MOST_COMMANDS, MOST_COMMANDS, MOST_COMMANDS + 1, MOST_COMMANDS + 2]);
    while lines.len() < count {
        let line = if shortest { b"del 0".to_vec() } else { line_of(any_command(random, kind), maker) };
        lines.push(line);
    }
    match random.below(4) {
        0 => lines.push(other_line(random, kind, maker)),
        1 => {
            let last = lines.len() - random.between(1, 3);
            other_number(random, &mut lines[last], &ODD_NUMBERS);
        }
        _ => {}
    }
}

fn any_lines(random: &mut Random, kind: u8, maker: Maker) -> Vec<Line> {
    let count = random.below(6);
    let staying = |random: &mut Random| kind == 2 && maker == Maker::B && random.one_in(6);
    let mut lines = Vec::new();
    for _ in 0..count {
        let written = line_of(any_command(random, kind), maker);
        lines.push(if staying(random) { staying_move(random) } else { written });
    }
    lines
}

fn tokens(random: &mut Random) -> Vec<u8> {
    let count = random.below(12);
    (0..count).flat_map(|_| random.pick(&TOKENS).bytes()).collect()
}

/// The text of a type and a maker.
fn any_text(random: &mut Random, kind: u8, maker: Maker) -> Vec<u8> {
    if random.one_in(16) {
        return tokens(random);
    }
    let mut lines = any_lines(random, kind, maker);
    if random.one_in(40) {
        lengthened(random, &mut lines, kind, maker);
    } else {
        for _ in 0..random.pick(&[0, 0, 1, 1, 1, 1, 2]) {
            damage(random, &mut lines, kind, maker);
        }
    }
    let mut text = join(&lines);
    if random.one_in(12) {
        cut_short(random, &mut text);
    }
    text
}

/// Any text; the reader is mostly told the type and the maker for which it was made.
pub fn any(random: &mut Random) -> MadeText {
    let (kind, maker) = (random.pick(&[1, 2, 2, 2]), any_maker(random));
    let text = any_text(random, kind, maker);
    let told_kind = if random.one_in(12) { random.pick(&[0, 3, 255, 3 - kind, 3 - kind]) } else { kind };
    let told_maker = if random.one_in(16) { other_maker(maker) } else { maker };
    MadeText { text, kind: told_kind, maker: told_maker }
}

/// The text of a script for a maker.
pub fn written(random: &mut Random, kind: u8, commands: &[Command]) -> MadeText {
    let maker = any_maker(random);
    MadeText { text: text_of(commands, maker), kind, maker }
}
