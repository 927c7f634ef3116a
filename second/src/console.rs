//! Console text: a script as text, one command a line, for two makers; and text
//! read as a script of a type and a maker that the reader is told.

use crate::commands::{commands_of, script_field, Command};
use crate::file::{check_script, read, read_with_script};
use crate::format::{numbers, Refusal, MOST_COMMANDS};
use crate::plan::plan;
use crate::text::number;
use std::fmt::Write;

/// A line that isn't a command of the script's type and the maker.
pub const NO_COMMAND: u8 = 55;
/// A number above the greatest, on a line that is a command but for that.
pub const BEYOND: u8 = 56;
const TOO_MANY: u8 = 4;
const WRONG_TYPE: u8 = 11;

/// The greatest number of a command; behind `before` one more can stand.
const MOST: u64 = 65_535;
const MOST_BEFORE: u64 = MOST + 1;

/// A command's line has at most four words; a fifth says that there are too many.
const WORDS: usize = 5;

#[derive(Clone, Copy, Debug, PartialEq, Eq)]
pub enum Maker {
    A,
    B,
}

impl Maker {
    pub const BOTH: [Maker; 2] = [Maker::A, Maker::B];

    pub fn name(self) -> &'static str {
        match self {
            Maker::A => "A",
            Maker::B => "B",
        }
    }

    pub fn named(name: &str) -> Option<Maker> {
        Maker::BOTH.into_iter().find(|maker| maker.name() == name)
    }
}

/// Which script of a file is written: its own, or the plan of a type.
#[derive(Clone, Copy, Debug, PartialEq, Eq)]
pub enum What {
    Own,
    PlanOne,
    PlanTwo,
}

impl What {
    pub const ALL: [What; 3] = [What::Own, What::PlanOne, What::PlanTwo];

    pub fn name(self) -> &'static str {
        match self {
            What::Own => "own",
            What::PlanOne => "1",
            What::PlanTwo => "2",
        }
    }

    pub fn named(name: &str) -> Option<What> {
        What::ALL.into_iter().find(|what| what.name() == name)
    }
}

/// The type that a digit names.
pub fn type_named(name: &str) -> Option<u8> {
    match name {
        "1" => Some(1),
        "2" => Some(2),
        _ => None,
    }
}

// ---- How B counts the second number of a move ----

/// The place, in the list as it stands, before which the rule is put that `mov i j` moves.
pub fn before(i: u64, j: u64) -> u64 {
    if j > i {
        j + 1
    } else {
        j
    }
}

/// The place in the new list of a rule that is moved before this one.
pub fn moved_to(i: u64, before: u64) -> u64 {
    if before <= i {
        before
    } else {
        before - 1
    }
}

// ---- A script as text ----

fn add_line(text: &mut String, maker: Maker, command: Command) {
    let added = match (command, maker) {
        (Command::App { r }, _) => writeln!(text, "app {r}"),
        (Command::DelRule { r }, _) => writeln!(text, "del {r}"),
        (Command::Ins { i, r }, _) => writeln!(text, "ins {i} {r}"),
        (Command::DelPlace { i }, _) => writeln!(text, "del {i}"),
        (Command::Mov { i, j }, Maker::A) => writeln!(text, "mov {i} {j}"),
        (Command::Mov { i, j }, Maker::B) => writeln!(text, "move {i} before {}", before(i.into(), j.into())),
    };
    added.expect("a string takes all text");
}

pub fn text_of(commands: &[Command], maker: Maker) -> Vec<u8> {
    let mut text = String::new();
    for &command in commands {
        add_line(&mut text, maker, command);
    }
    text.into_bytes()
}

/// The text of a script's value, tested first.
pub fn script_text(value: &[u8], maker: Maker) -> Result<Vec<u8>, Refusal> {
    check_script(value)?;
    Ok(text_of(&commands_of(value), maker))
}

fn plan_commands(file: &[u8], kind: u8) -> Result<Vec<Command>, Refusal> {
    let contents = read(file)?;
    let keep = contents.keep.map(numbers);
    Ok(plan(kind, &numbers(contents.initial), &numbers(contents.target), keep.as_deref()).commands)
}

/// The text of a file's script, or of a plan for it.
pub fn file_text(file: &[u8], what: What, maker: Maker) -> Result<Vec<u8>, Refusal> {
    let commands = match what {
        What::Own => commands_of(read_with_script(file)?.1),
        What::PlanOne => plan_commands(file, 1)?,
        What::PlanTwo => plan_commands(file, 2)?,
    };
    Ok(text_of(&commands, maker))
}

// ---- Text as a script ----

/// The number that a word of a command says.
fn said(word: &[u8]) -> Result<u64, u8> {
    number(word).ok_or(NO_COMMAND)
}

fn within(number: u64, most: u64) -> Result<u64, u8> {
    if number > most {
        Err(BEYOND)
    } else {
        Ok(number)
    }
}

fn one(word: &[u8]) -> Result<u16, u8> {
    Ok(within(said(word)?, MOST)? as u16)
}

/// Both must be numbers before either is held against the greatest.
fn two(first: &[u8], second: &[u8], most_of_second: u64) -> Result<(u64, u64), u8> {
    let (first, second) = (said(first)?, said(second)?);
    Ok((within(first, MOST)?, within(second, most_of_second)?))
}

/// The command of a line without its line feed.
fn command_of(line: &[u8], kind: u8, maker: Maker) -> Result<Command, u8> {
    let mut parts = line.split(|&byte| byte == b' ');
    let words: [Option<&[u8]>; WORDS] = std::array::from_fn(|_| parts.next());
    match (kind, maker, words) {
        (1, _, [Some(b"app"), Some(r), None, ..]) => Ok(Command::App { r: one(r)? }),
        (1, _, [Some(b"del"), Some(r), None, ..]) => Ok(Command::DelRule { r: one(r)? }),
        (2, _, [Some(b"del"), Some(i), None, ..]) => Ok(Command::DelPlace { i: one(i)? }),
        (2, _, [Some(b"ins"), Some(i), Some(r), None, ..]) => {
            let (i, r) = two(i, r, MOST)?;
            Ok(Command::Ins { i: i as u16, r: r as u16 })
        }
        (2, Maker::A, [Some(b"mov"), Some(i), Some(j), None, ..]) => {
            let (i, j) = two(i, j, MOST)?;
            Ok(Command::Mov { i: i as u16, j: j as u16 })
        }
        (2, Maker::B, [Some(b"move"), Some(i), Some(b"before"), Some(b), None]) => {
            let (i, b) = two(i, b, MOST_BEFORE)?;
            Ok(Command::Mov { i: i as u16, j: moved_to(i, b) as u16 })
        }
        _ => Err(NO_COMMAND),
    }
}

/// The commands of a text, line by line: 55, 56, then 4.
fn commands_in(text: &[u8], kind: u8, maker: Maker) -> Result<Vec<Command>, Refusal> {
    let mut commands = Vec::new();
    for (index, line) in text.split_inclusive(|&byte| byte == b'\n').enumerate() {
        let refused = |number| Refusal { number, position: index + 1 };
        let line = line.strip_suffix(b"\n").ok_or(refused(NO_COMMAND))?;
        let command = command_of(line, kind, maker).map_err(refused)?;
        if commands.len() == MOST_COMMANDS {
            return Err(refused(TOO_MANY));
        }
        commands.push(command);
    }
    Ok(commands)
}

/// The script field of a text.
pub fn text_script(text: &[u8], kind: u8, maker: Maker) -> Result<Vec<u8>, Refusal> {
    if !matches!(kind, 1 | 2) {
        return Err(Refusal { number: WRONG_TYPE, position: 0 });
    }
    Ok(script_field(kind, &commands_in(text, kind, maker)?))
}

#[cfg(test)]
mod tests {
    use super::*;
    use crate::commands::script_value;
    use crate::file::{file_bytes, Contents};
    use crate::format::list_value;
    use crate::rule::plain_rule;
    use crate::text::printed;
    use Command::*;

    fn written(kind: u8, commands: &[Command], maker: Maker) -> String {
        let text = script_text(&script_value(kind, commands), maker).unwrap();
        String::from_utf8(text).unwrap()
    }

    fn refused(text: &[u8], kind: u8, maker: Maker) -> (u8, usize) {
        let refusal = text_script(text, kind, maker).unwrap_err();
        (refusal.number, refusal.position)
    }

    fn moves(text: &str) -> Vec<Command> {
        commands_in(text.as_bytes(), 2, Maker::B).unwrap()
    }

    #[test]
    fn both_makers_write_one_command_a_line() {
        for maker in Maker::BOTH {
            assert_eq!(written(1, &[App { r: 0 }, DelRule { r: 65535 }], maker), "app 0\ndel 65535\n");
            assert_eq!(written(1, &[], maker), "");
        }
        let commands = [Ins { i: 3, r: 4 }, DelPlace { i: 4 }, Mov { i: 1, j: 2 }];
        assert_eq!(written(2, &commands, Maker::A), "ins 3 4\ndel 4\nmov 1 2\n");
        assert_eq!(written(2, &commands, Maker::B), "ins 3 4\ndel 4\nmove 1 before 3\n");
    }

    #[test]
    fn b_counts_in_the_list_as_it_stands() {
        let moves = [(4, 2), (2, 4), (3, 3), (65534, 65535), (65535, 65535), (0, 0), (0, 1)];
        let commands = moves.map(|(i, j)| Mov { i, j });
        let b = "move 4 before 2\nmove 2 before 5\nmove 3 before 3\nmove 65534 before 65536\n\
                 move 65535 before 65535\nmove 0 before 0\nmove 0 before 2\n";
        assert_eq!(written(2, &commands, Maker::B), b);
    }

    #[test]
    fn what_is_written_is_read_back() {
        let ends = [0, 1, 2, 3, 9, 10, 99, 256, 9999, 10000, 65534, 65535];
        let pairs = || ends.into_iter().flat_map(|i| ends.map(|j| (i, j)));
        let one: Vec<Command> = ends.into_iter().flat_map(|r| [App { r }, DelRule { r }]).collect();
        let two = pairs().flat_map(|(i, j)| [Ins { i, r: j }, DelPlace { i }, Mov { i, j }]);
        for (kind, commands) in [(1, one), (2, two.collect())] {
            for maker in Maker::BOTH {
                let text = text_of(&commands, maker);
                assert_eq!(text_script(&text, kind, maker), Ok(script_field(kind, &commands)));
            }
        }
    }

    #[test]
    fn b_has_two_ways_to_say_that_a_rule_stays() {
        assert_eq!(moves("move 3 before 3\nmove 3 before 4\n"), [Mov { i: 3, j: 3 }; 2]);
        assert_eq!(moves("move 65535 before 65536\n"), [Mov { i: 65535, j: 65535 }]);
        assert_eq!(moves("move 0 before 0\nmove 0 before 1\n"), [Mov { i: 0, j: 0 }; 2]);
        assert_eq!(moves("move 3 before 2\nmove 3 before 5\n"), [Mov { i: 3, j: 2 }, Mov { i: 3, j: 4 }]);
    }

    #[test]
    fn a_line_that_is_no_command() {
        let lines = [
            "\n",
            "del 7",
            "del  7\n",
            " del 7\n",
            "del 7 \n",
            "del 07\n",
            "del 00\n",
            "del +7\n",
            "del -7\n",
            "del 7\r\n",
            "del\t7\n",
            "DEL 7\n",
            "del\n",
            "del \n",
            "del 1 2\n",
            "del x\n",
            "del 7\0\n",
            "delete 7\n",
            "de 7\n",
            "app 7\n",
            "ins 1\n",
            "ins 1 2 3\n",
            "ins 1  2\n",
            "ins 1 02\n",
            "ins 70000 x\n",
            "ins x 70000\n",
        ];
        for line in lines {
            for maker in Maker::BOTH {
                assert_eq!(refused(line.as_bytes(), 2, maker), (55, 1), "{line:?}");
                assert_eq!(refused(format!("del 1\n{line}").as_bytes(), 2, maker), (55, 2), "{line:?}");
            }
        }
        for line in ["ins 1 2\n", "mov 1 2\n", "move 1 before 2\n", "del 07\n"] {
            assert_eq!(refused(line.as_bytes(), 1, Maker::A), (55, 1), "{line:?}");
        }
        for line in ["move 1 before 2\n", "mov 1\n", "mov 1 2 3\n", "mov 1 before 2\n"] {
            assert_eq!(refused(line.as_bytes(), 2, Maker::A), (55, 1), "{line:?}");
        }
        for line in ["mov 1 2\n", "move 1 2\n", "move 1 after 2\n", "move 1 before 2 3\n", "move 1 before 02\n"] {
            assert_eq!(refused(line.as_bytes(), 2, Maker::B), (55, 1), "{line:?}");
        }
        assert_eq!(refused(b"del \xff\n", 2, Maker::A), (55, 1));
    }

    #[test]
    fn numbers_above_the_greatest() {
        let many = "9".repeat(30);
        let wide = [65536, 65537, 131071, 4294967296].map(|number: u64| number.to_string());
        for number in wide.iter().chain([&many, &"18446744073709551616".to_string()]) {
            for maker in Maker::BOTH {
                for line in [format!("del {number}\n"), format!("ins {number} 1\n"), format!("ins 1 {number}\n")] {
                    assert_eq!(refused(line.as_bytes(), 2, maker), (56, 1), "{line:?}");
                }
                assert_eq!(refused(format!("app {number}\n").as_bytes(), 1, maker), (56, 1));
            }
            assert_eq!(refused(format!("mov 1 {number}\n").as_bytes(), 2, Maker::A), (56, 1));
            assert_eq!(refused(format!("move {number} before 1\n").as_bytes(), 2, Maker::B), (56, 1));
        }
        assert_eq!(moves("move 1 before 65536\n"), [Mov { i: 1, j: 65535 }]);
        assert_eq!(refused(b"move 1 before 65537\n", 2, Maker::B), (56, 1));
        assert_eq!(refused(b"move 65536 before 65536\n", 2, Maker::B), (56, 1));
    }

    #[test]
    fn the_first_line_that_fails_is_told() {
        assert_eq!(refused(b"del 70000\ndel x\n", 2, Maker::A), (56, 1));
        assert_eq!(refused(b"del x\ndel 70000\n", 2, Maker::A), (55, 1));
        assert_eq!(refused(b"del 1\ndel 70000\n\n", 2, Maker::A), (56, 2));
    }

    #[test]
    fn a_script_has_2048_commands() {
        let full = "app 1\n".repeat(MOST_COMMANDS);
        assert_eq!(text_script(full.as_bytes(), 1, Maker::A).unwrap().len(), 10_244);
        let with = |line: &str| refused((full.clone() + line).as_bytes(), 1, Maker::A);
        assert_eq!(with("app 1\n"), (4, 2049));
        assert_eq!(with("app 1\nx\n"), (4, 2049));
        assert_eq!(with("app 70000\n"), (56, 2049));
        assert_eq!(with("\n"), (55, 2049));
        assert_eq!(with("app 1"), (55, 2049));
    }

    #[test]
    fn the_longest_texts() {
        let value = script_value(2, &[Mov { i: 65534, j: 65535 }; MOST_COMMANDS]);
        assert_eq!(script_text(&value, Maker::A).unwrap().len(), 32_768);
        assert_eq!(script_text(&value, Maker::B).unwrap().len(), 49_152);
    }

    #[test]
    fn a_type_that_is_none_comes_first() {
        for kind in [0, 3, 255] {
            assert_eq!(refused(b"x", kind, Maker::A), (11, 0));
            assert_eq!(refused(b"", kind, Maker::B), (11, 0));
        }
        for kind in [1, 2] {
            assert_eq!(text_script(b"", kind, Maker::A), Ok(vec![5, 0, 1, kind]));
        }
    }

    #[test]
    fn a_value_is_tested_first() {
        let number = |value: &[u8]| script_text(value, Maker::B).unwrap_err();
        assert_eq!(number(&[]), Refusal { number: 4, position: 0 });
        assert_eq!(number(&[3, 1]), Refusal { number: 4, position: 0 });
        assert_eq!(number(&[3]), Refusal { number: 11, position: 0 });
        assert_eq!(number(&[2, 4, 0, 1, 0, 1]), Refusal { number: 11, position: 0 });
    }

    #[test]
    fn the_scripts_of_a_file() {
        let rules: Vec<Vec<u8>> = (0..5).map(plain_rule).collect();
        let file = |script: Option<&[u8]>| {
            file_bytes(&Contents {
                rules: rules.iter().map(Vec::as_slice).collect(),
                initial: &list_value(&[0, 1, 2, 3]),
                target: &list_value(&[1, 0, 4, 3]),
                script,
                ..Contents::default()
            })
        };
        let bare = file(None);
        let text = |what, maker| String::from_utf8(file_text(&bare, what, maker).unwrap()).unwrap();
        for maker in Maker::BOTH {
            assert_eq!(text(What::PlanOne, maker), "del 3\ndel 2\ndel 0\napp 0\napp 4\napp 3\n");
            assert_eq!(file_text(&bare, What::Own, maker), Err(Refusal { number: 12, position: bare.len() }));
        }
        assert_eq!(text(What::PlanTwo, Maker::A), "ins 3 4\ndel 4\nmov 1 2\n");
        assert_eq!(text(What::PlanTwo, Maker::B), "ins 3 4\ndel 4\nmove 1 before 3\n");
        let scripted = file(Some(&script_value(2, &[Mov { i: 2, j: 3 }])));
        assert_eq!(file_text(&scripted, What::Own, Maker::B), Ok(b"move 2 before 4\n".to_vec()));
        assert_eq!(printed(file_text(&[], What::PlanTwo, Maker::B)), b"refused 3 at 0\n");
    }
}
