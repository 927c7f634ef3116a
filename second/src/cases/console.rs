//! Made cases for the program `console_cases`, each a file whose name's end tells the calls:
//! for every refusal and limit.

use super::base::base;
use super::calls::{file_case, text_case, value_case};
use super::faults;
use super::given::{given, Given};
use super::row::CaseFile;
use crate::commands::Command::*;
use crate::commands::{script_value, Command};
use crate::console::{text_of, Maker};
use crate::format::{MOST_COMMANDS, MOST_IN_POLICY, MOST_RULES};

// ---- Values ----

/// Numbers with each count of digits, and both ends.
const ENDS: [u16; 9] = [0, 1, 2, 9, 10, 100, 1000, 65534, 65535];

/// The longest line of either maker.
const LONGEST: Command = Mov { i: 65534, j: 65535 };

fn of_ends(command: fn(u16, u16) -> Command) -> Vec<Command> {
    ENDS.into_iter().flat_map(|first| ENDS.map(|second| command(first, second))).collect()
}

fn values() -> Vec<CaseFile> {
    let one: Vec<Command> = ENDS.into_iter().flat_map(|r| [App { r }, DelRule { r }]).collect();
    let deletes = ENDS.map(|i| DelPlace { i });
    let mut cut = script_value(2, &[Mov { i: 1, j: 2 }; 3]);
    cut.pop();
    vec![
        value_case("none-of-type-1", vec![1]),
        value_case("none-of-type-2", vec![2]),
        value_case("app-and-del", script_value(1, &one)),
        value_case("ins", script_value(2, &of_ends(|i, r| Ins { i, r }))),
        value_case("del", script_value(2, &deletes)),
        value_case("mov", script_value(2, &of_ends(|i, j| Mov { i, j }))),
        value_case("longest", script_value(2, &[LONGEST; MOST_COMMANDS])),
        value_case("one-too-many", script_value(2, &[LONGEST; MOST_COMMANDS + 1])),
        value_case("no-byte", vec![]),
        value_case("cut", cut),
        value_case("cut-and-type-3", vec![3, 1]),
        value_case("type-0", vec![0]),
        value_case("type-3", script_value(3, &[Ins { i: 1, r: 1 }])),
        value_case("code-6", vec![2, 6, 0, 0, 0, 0]),
        value_case("code-of-type-2", vec![1, 1, 0, 0, 0, 0, 4, 0, 0, 0, 0]),
        value_case("code-of-type-1", vec![2, 1, 0, 0, 0, 0]),
        value_case("number-unused", vec![2, 4, 0, 1, 0, 1]),
    ]
}

// ---- Texts ----

/// A line of each form: its name, type, the makers that have it, its words.
const FORMS: [(&str, u8, &[Maker], &str); 5] = [
    ("app", 1, &[Maker::A], "app 7"),
    ("del", 1, &[Maker::B], "del 7"),
    ("ins", 2, &Maker::BOTH, "ins 8 7"),
    ("mov", 2, &[Maker::A], "mov 8 7"),
    ("move", 2, &[Maker::B], "move 8 before 7"),
];

type Damage = fn(&str) -> String;

/// What is done to a line that stands between two others. The last number is 7, the one before it 8.
const DAMAGES: [(&str, Damage); 21] = [
    ("second-blank", |line| line.replacen(' ', "  ", 1)),
    ("second-blank-last", |line| line.replace(" 7", "  7")),
    ("leading-blank", |line| format!(" {line}")),
    ("trailing-blank", |line| format!("{line} ")),
    ("leading-zero", |line| line.replace(" 7", " 07")),
    ("two-zeros", |line| line.replace(" 7", " 00")),
    ("plus", |line| line.replace(" 7", " +7")),
    ("minus", |line| line.replace(" 7", " -7")),
    ("carriage-return", |line| format!("{line}\r")),
    ("tab", |line| line.replace(" 7", "\t7")),
    ("no-digits", |line| line.replace(" 7", " ")),
    ("no-number", |line| line.replace(" 7", "")),
    ("one-more", |line| format!("{line} 7")),
    ("capital", |line| line.replacen(|letter: char| letter.is_ascii_lowercase(), "D", 1)),
    ("cut-word", |line| line[1..].to_string()),
    ("word-only", |line| line.split(' ').next().unwrap_or_default().to_string()),
    ("65535", |line| line.replace(" 7", " 65535")),
    ("65536", |line| line.replace(" 7", " 65536")),
    ("65537", |line| line.replace(" 7", " 65537")),
    ("30-digits", |line| line.replace(" 7", &format!(" {}", "9".repeat(30)))),
    ("30-digits-and-a-blank", |line| line.replace(" 7", &format!(" {} ", "9".repeat(30)))),
];

/// Damage to the number before the last.
const FIRST_NUMBER: [(&str, Damage); 4] = [
    ("first-zero", |line| line.replace(" 8", " 08")),
    ("first-65536", |line| line.replace(" 8", " 65536")),
    ("first-beyond-last-none", |line| line.replace(" 8", " 65536").replace(" 7", " x")),
    ("first-none", |line| line.replace(" 8", " ")),
];

/// Each damage to each form, in the middle of a text whose last line is no command. Where the damaged line passes, the last is told.
fn damaged() -> Vec<CaseFile> {
    let mut all = Vec::new();
    for (form, kind, makers, line) in FORMS {
        let firsts = FIRST_NUMBER.into_iter().filter(|_| line.contains('8'));
        for (name, damage) in DAMAGES.into_iter().chain(firsts) {
            let text = format!("{line}\n{}\nx\n", damage(line)).into_bytes();
            all.push(text_case(&format!("{form}-{name}"), makers[0], kind, text));
        }
        let ends =
            [("no-line-feed", ""), ("empty-line", "\n\n"), ("empty-line-before-more", "\n\nx\n"), ("whole", "\n")];
        for (name, end) in ends {
            for &maker in makers {
                let text = format!("{line}\n{line}{end}").into_bytes();
                all.push(text_case(&format!("{form}-{name}"), maker, kind, text));
            }
        }
    }
    all
}

/// Lines of the other maker and of the other type, and types that are none.
fn others() -> Vec<CaseFile> {
    let mut all = Vec::new();
    for (form, kind, makers, line) in FORMS {
        for maker in Maker::BOTH {
            for told in [1, 2] {
                if told != kind || !makers.contains(&maker) {
                    all.push(text_case(&format!("{form}-elsewhere"), maker, told, format!("{line}\n").into_bytes()));
                }
            }
        }
    }
    for maker in Maker::BOTH {
        for kind in [0, 3, 9] {
            all.push(text_case("type", maker, kind, b"del 1\n".to_vec()));
            all.push(text_case("type-and-fault", maker, kind, b"x".to_vec()));
        }
        for kind in [1, 2] {
            all.push(text_case("empty", maker, kind, Vec::new()));
        }
    }
    all
}

/// Moves of B by the second number: before the rule itself, before the next one, and about the greatest.
fn moves() -> Vec<CaseFile> {
    let of = |name: &str, moves: &[(u64, u64)]| {
        let line = |(i, b): &(u64, u64)| format!("move {i} before {b}\n");
        text_case(name, Maker::B, 2, moves.iter().map(line).collect::<String>().into_bytes())
    };
    let about: Vec<(u64, u64)> = [0, 1, 2, 3, 10, 65534, 65535]
        .into_iter()
        .flat_map(|i: u64| [0, 1, i.saturating_sub(1), i, i + 1, (i + 2).min(65536)].map(|b| (i, b)))
        .collect();
    vec![
        of("moves", &about),
        of("moves-that-stay", &[(1, 1), (1, 2), (65534, 65535), (65535, 65535), (65535, 65536), (0, 0), (0, 1)]),
        of("move-past-the-greatest", &[(1, 65536), (65535, 65537)]),
        of("move-of-one-past-the-greatest", &[(65535, 65536), (65536, 65536)]),
    ]
}

/// The longest texts, and what can stand on line 2,049.
fn long_texts() -> Vec<CaseFile> {
    let longest = |maker| text_of(&[LONGEST; MOST_COMMANDS], maker);
    let mut all = Maker::BOTH.map(|maker| text_case("longest", maker, 2, longest(maker))).to_vec();
    let full = "del 0\n".repeat(MOST_COMMANDS);
    let ends = [
        ("good", "move 1 before 2\n"),
        ("good-then-none", "del 0\nx\n"),
        ("beyond", "move 1 before 65537\n"),
        ("none", "mov 1 2\n"),
        ("without-line-feed", "del 0"),
        ("empty", "\n"),
    ];
    for (name, end) in ends {
        let text = format!("{full}{end}").into_bytes();
        all.push(text_case(&format!("line-2049-{name}"), Maker::B, 2, text));
    }
    all
}

// ---- Files ----

fn numbered(count: usize) -> Vec<u16> {
    (0..count as u16).collect()
}

/// All there can be: disjoint policies of 512 rules each, and the longest script.
fn greatest() -> Given {
    let numbers = numbered(MOST_RULES);
    let (lower, upper) = numbers.split_at(MOST_IN_POLICY);
    given(MOST_RULES as u16, lower, upper).permitting().script(2, &[LONGEST; MOST_COMMANDS])
}

fn reversed() -> Given {
    let numbers = numbered(100);
    let back: Vec<u16> = numbers.iter().rev().copied().collect();
    given(100, &numbers, &back).keep(&[])
}

/// Files that the reader accepts.
fn good_files() -> Vec<CaseFile> {
    let example = || given(5, &[0, 1, 2, 3], &[1, 0, 4, 3]);
    let all = [
        ("example", example()),
        ("example-planned-1", example().planned(1)),
        ("example-planned-2", example().permitting().planned(2)),
        ("third-example", given(3, &[0, 1, 2], &[2, 0, 1]).planned(2)),
        ("third-example-kept", given(3, &[0, 1, 2], &[2, 0, 1]).keep(&[0, 1]).planned(2)),
        ("base", base()),
        ("same", given(3, &[2, 0, 1], &[2, 0, 1]).planned(1)),
        ("nothing", Given::default()),
        ("breaking-script", example().script(2, &of_ends(|i, j| Mov { i, j })[..20])),
        ("reversed", reversed()),
        ("greatest", greatest()),
    ];
    all.map(|(name, given)| file_case(name, given.file())).into()
}

/// Files that it turns away, and one that has no script.
fn bad_files() -> Vec<CaseFile> {
    let whole = base().file();
    let fields = base().fields();
    let mut all = vec![
        file_case("no-field", vec![]),
        file_case("no-target", fields[..6].concat()),
        file_case("head-cut", fields[..6].concat()[..152].to_vec()),
        file_case("value-cut", whole[..whole.len() - 1].to_vec()),
        file_case("one-byte-more", [&whole[..], &[0]].concat()),
        file_case("other-tag", [&fields[..5].concat()[..], &[9, 0, 0]].concat()),
        file_case("field-more", [&whole[..], &[5, 0, 1, 1]].concat()),
        file_case("rule-too-many", given(MOST_RULES as u16 + 1, &[], &[]).file()),
        file_case("no-script", Given { script: None, ..base() }.file()),
    ];
    for (index, given) in faults::one_for_each_test().into_iter().enumerate() {
        all.push(file_case(&format!("fault-{index:02}"), given.file()));
    }
    all
}

pub fn made() -> Vec<CaseFile> {
    [values(), damaged(), others(), moves(), long_texts(), good_files(), bad_files()].into_iter().flatten().collect()
}
