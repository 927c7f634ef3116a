//! Cases for the program `writer_cases`: values of many shapes and with every
//! fault, in places from empty to far too large.
//!
//! A case: the size of the place (two bytes), the byte that fills it, whether
//! there is a default, whether there is a keep list, whether there is a script;
//! then the six values, a row.

use super::base::{base, rule_from, rules, ENDS};
use super::expected::{checksum, or_refused, read_line, NARROW_PRIME};
use super::given::Given;
use super::row::{add_part, Group, Trial};
use crate::file;
use crate::format::{list_value, MOST_COMMANDS, MOST_IN_POLICY, MOST_RULES, RULE_BYTES};
use std::collections::BTreeSet;

/// The place is the first bytes of a room that has as many as two bytes can say.
const ROOM_BYTES: usize = 65536;
const FILLING: u8 = 0xa5;

/// Room for any small file.
const SMALL: usize = 500;
const AMPLE: usize = 1000;
const GREAT: usize = 30000;

struct Case {
    given: Given,
    /// Lent for a default, for a keep list and for a script that are absent.
    unread: Vec<u8>,
    size: usize,
    filling: u8,
}

impl Case {
    fn new(given: Given, size: usize) -> Case {
        Case { given, unread: Vec::new(), size, filling: FILLING }
    }

    fn bytes(&self) -> Vec<u8> {
        let Given { rules, initial, target, default, keep, script } = &self.given;
        let mut bytes = u16::try_from(self.size).expect("a size of two bytes").to_be_bytes().to_vec();
        let optional = [default, keep, script];
        bytes.push(self.filling);
        bytes.extend(optional.map(|value| u8::from(value.is_some())));
        let [default, keep, script] = optional.map(|value| value.as_ref().unwrap_or(&self.unread));
        for value in [rules, initial, target, default, keep, script] {
            add_part(&mut bytes, value);
        }
        bytes
    }

    /// The refusal; or the bytes written, a checksum of them and how they are read
    /// back. And whether all other bytes of the room are as they were.
    fn text(&self) -> String {
        let mut room = vec![self.filling; ROOM_BYTES];
        let written = file::write(&self.given.values(), &mut room[..self.size]);
        let kept = |rest: &[u8]| if rest.iter().all(|&byte| byte == self.filling) { "kept" } else { "changed" };
        match written {
            Ok(count) => {
                let (file, rest) = room.split_at(count);
                format!("wrote {count} sum {} {} {}\n", checksum(file, NARROW_PRIME), kept(rest), read_line(file))
            }
            Err(_) => or_refused(written, |_| String::new()) + &format!(" {}\n", kept(&room)),
        }
    }
}

/// Accepted values: both defaults, absent and empty keep lists and scripts, policies without rules, a catalogue without rules.
fn shapes() -> Vec<Given> {
    let scripts = [None, Some(vec![1]), Some(vec![2]), Some(vec![1, 1, 0, 2, 0, 0, 2, 0, 0, 0, 0]), base().script];
    let mut all = Vec::new();
    for keep in [None, Some(vec![]), Some(list_value(&[1])), base().keep] {
        all.extend(scripts.clone().map(|script| Given { keep: keep.clone(), script, ..base() }));
    }
    let none = Given::default;
    all.extend([
        Given { default: None, ..base() },
        Given { default: None, keep: None, ..base() },
        Given { default: None, script: None, ..base() },
        none(),
        none().permitting(),
        Given { script: Some(vec![1]), ..none().permitting() },
        Given { keep: Some(vec![]), ..none() },
        Given { script: Some(vec![1]), ..none() },
        Given { keep: Some(vec![]), script: Some(vec![2, 5, 0, 1, 0, 1]), ..none() },
    ]);
    all.extend([1, 2, 7].map(|count| Given { rules: rules(count), ..none() }));
    for initial in [&[][..], &[4], &[4, 3, 2, 1, 0]] {
        for target in [&[][..], &[0], &[2, 4]] {
            let (initial, target) = (list_value(initial), list_value(target));
            all.push(Given { initial, target, keep: None, ..base() });
        }
    }
    all
}

/// The same shapes in ample room and in just enough; and with absent values for which something is lent.
fn shape_cases() -> Vec<Case> {
    let mut all: Vec<(Given, Vec<u8>)> = shapes().into_iter().map(|given| (given, Vec::new())).collect();
    for script in [None, Some(vec![1])] {
        for unread in [vec![0], list_value(&[4, 4]), list_value(&[9]), vec![7; 31]] {
            all.push((Given { default: None, keep: None, script: script.clone(), ..base() }, unread));
        }
    }
    all.push((Given { default: None, ..base() }, vec![1]));
    let sized = |(given, unread): (Given, Vec<u8>)| {
        [AMPLE, given.file().len()].map(|size| Case { unread: unread.clone(), ..Case::new(given.clone(), size) })
    };
    all.into_iter().flat_map(sized).collect()
}

/// Places from empty to much larger, and other filling bytes.
fn rooms() -> Vec<Case> {
    let mut all = Vec::new();
    for given in [
        base(),
        Given::default(),
        Given { keep: None, ..base() },
        Given { default: None, script: None, ..base() },
        Given { keep: Some(vec![]), script: Some(vec![1]), ..base() },
    ] {
        let needed = given.file().len();
        let about = [needed / 2, needed - 3, needed - 1, needed, needed + 1, needed + 257];
        for size in BTreeSet::from_iter([0, 1, 2, 3, 40000, 65535].into_iter().chain(about)) {
            all.extend([0, 1, 255].map(|filling| Case { filling, ..Case::new(given.clone(), size) }));
        }
    }
    all
}

/// A rule whose low, at this place, is above its high.
fn falling_rule((at, width): (usize, usize)) -> Vec<u8> {
    let mut rule = rule_from(9, true);
    rule[at..at + width].fill(1);
    rule[at + width..at + 2 * width].fill(0);
    rule
}

fn with_rule(index: usize, rule: &[u8]) -> Given {
    let mut given = base();
    given.rules[RULE_BYTES * index..][..RULE_BYTES].copy_from_slice(rule);
    given
}

/// For each test of the rules, values that it turns away.
fn rule_faults() -> Vec<Vec<Given>> {
    let rules = base().rules;
    let lengths =
        [&rules[..rules.len() - 1], &[&rules[..], &[0]].concat(), &[1], &rules[..26], &[&rules, &rules[..13]].concat()]
            .map(|rules| Given { rules: rules.to_vec(), ..base() });
    let actions = [2, 255].map(|action| [&[action], &rule_from(9, true)[1..]].concat());
    let spoilt = actions.into_iter().chain(ENDS.map(falling_rule));
    let bounds = spoilt.flat_map(|rule| [0, 2, 4].map(|index| with_rule(index, &rule)));
    let equal = [(1, 0), (4, 0), (4, 3), (3, 1)]
        .map(|(index, other)| with_rule(index, &rules[RULE_BYTES * other..][..RULE_BYTES]));
    vec![lengths.to_vec(), bounds.collect(), equal.to_vec()]
}

fn first_numbers(count: usize) -> Vec<u8> {
    list_value(&(0..count as u16).collect::<Vec<_>>())
}

/// The same for a policy, put where `with` puts it.
fn policy_faults(with: fn(Vec<u8>) -> Given) -> Vec<Vec<Given>> {
    let lengths = [vec![0], vec![0, 0, 0, 1, 2], first_numbers(MOST_IN_POLICY + 1), vec![0; 1025]];
    let outside: [&[u16]; 4] = [&[5], &[0, 1, 5], &[65535], &[256]];
    let twice: [&[u16]; 3] = [&[0, 0], &[1, 2, 1], &[4, 3, 2, 4]];
    let of_lists = |lists: &[&[u16]]| lists.iter().map(|list| with(list_value(list))).collect();
    vec![lengths.map(with).to_vec(), of_lists(&outside), of_lists(&twice)]
}

fn default_faults() -> Vec<Vec<Given>> {
    let with = |default: Vec<u8>| Given { default: Some(default), ..base() };
    let lengths = [vec![], vec![1, 1], vec![0, 1], vec![1; 27]];
    vec![lengths.map(with).to_vec(), [0, 2, 128, 255].map(|value| with(vec![value])).to_vec()]
}

fn keep_faults() -> Vec<Vec<Given>> {
    let with = |keep: Vec<u8>| Given { keep: Some(keep), ..base() };
    let orders: [&[u16]; 7] = [&[3, 1], &[1, 1], &[9], &[1, 0], &[2], &[4], &[65535]];
    let lengths = [vec![0], vec![0, 1, 0], first_numbers(MOST_IN_POLICY + 1)];
    vec![lengths.map(with).to_vec(), orders.map(|list| with(list_value(list))).to_vec()]
}

/// As many commands of a type as you like, all the same.
fn script(kind: u8, command: [u8; 5], count: usize) -> Vec<u8> {
    [&[kind], &command.repeat(count)[..]].concat()
}

const APP: [u8; 5] = [1, 0, 0, 0, 0];
const DEL: [u8; 5] = [2, 0, 0, 0, 0];
const MOV: [u8; 5] = [5, 0, 1, 0, 1];

fn script_faults() -> Vec<Vec<Given>> {
    let with = |script: Vec<u8>| Given { script: Some(script), ..base() };
    let lengths = [
        vec![],
        vec![1, 1],
        vec![2, 3, 0, 1, 0],
        [script(1, APP, 2), vec![1]].concat(),
        script(1, APP, MOST_COMMANDS + 1),
    ];
    let coding = [
        vec![0],
        vec![3],
        vec![255],
        vec![1, 3, 0, 1, 0, 0],
        vec![1, 1, 0, 1, 0, 1],
        vec![1, 2, 0, 1, 1, 0],
        vec![1, 0, 0, 0, 0, 0],
        vec![2, 1, 0, 1, 0, 0],
        vec![2, 4, 0, 1, 0, 1],
        vec![2, 6, 0, 1, 0, 1],
        vec![2, 5, 0, 1, 0, 1, 0, 0, 0, 0, 0],
    ];
    vec![lengths.map(with).to_vec(), coding.map(with).to_vec()]
}

/// For each test, values that it turns away, from the first test to the last.
fn faults() -> Vec<Vec<Given>> {
    let initial = policy_faults(|initial| Given { initial, ..base() });
    let target = policy_faults(|target| Given { target, ..base() });
    [rule_faults(), initial, target, default_faults(), keep_faults(), script_faults()].concat()
}

fn fault_cases() -> Vec<Case> {
    let all = faults().concat();
    let small = |given: &&Given| given.script.as_ref().is_some_and(|script| script.len() < 100);
    let without_room = all.iter().filter(small).map(|given| Case::new(given.clone(), 0));
    all.iter().map(|given| Case::new(given.clone(), GREAT)).chain(without_room).collect()
}

/// Of one value of two, the one that isn't the base's; None if neither is.
fn either<T: PartialEq + Clone>(base: &T, one: &T, other: &T) -> Option<T> {
    match (one == base, other == base) {
        (_, true) => Some(one.clone()),
        (true, false) => Some(other.clone()),
        (false, false) => None,
    }
}

fn with_both(one: &Given, other: &Given) -> Option<Given> {
    let base = base();
    Some(Given {
        rules: either(&base.rules, &one.rules, &other.rules)?,
        initial: either(&base.initial, &one.initial, &other.initial)?,
        target: either(&base.target, &one.target, &other.target)?,
        default: either(&base.default, &one.default, &other.default)?,
        keep: either(&base.keep, &one.keep, &other.keep)?,
        script: either(&base.script, &one.script, &other.script)?,
    })
}

/// Two faults at once, in values that are tested one after the other: the earlier wins.
fn pairs() -> Vec<Given> {
    let firsts: Vec<Given> = faults().into_iter().map(|group| group[0].clone()).collect();
    let later = |index: usize| firsts[index + 1..].iter();
    let pairs = firsts.iter().enumerate().flat_map(|(index, one)| later(index).map(move |other| with_both(one, other)));
    pairs.flatten().collect()
}

/// Two faults at once in one value.
fn doubles() -> Vec<Given> {
    let wrong = falling_rule(ENDS[1]);
    let (rule, odd) = (rule_from(0, true), |list: &[u16]| [list_value(list), vec![0]].concat());
    vec![
        Given { rules: [&wrong[..], &wrong, &[0]].concat(), ..base() },
        Given { rules: [&wrong[..], &wrong].concat(), ..base() },
        Given { rules: [&rule[..], &rule, &wrong].concat(), ..base() },
        Given { initial: list_value(&[5, 5]), ..base() },
        Given { target: list_value(&[0, 0, 5]), ..base() },
        Given { initial: odd(&[5, 5]), ..base() },
        Given { target: odd(&[0, 0]), ..base() },
        Given { default: Some(vec![2, 2]), ..base() },
        Given { keep: Some(odd(&[3, 1])), ..base() },
        Given { script: Some(vec![3, 1]), ..base() },
    ]
}

/// One rule, and policies that have it.
fn one() -> Given {
    Given { rules: rules(1), initial: vec![0, 0], target: vec![0, 0], ..Given::default() }
}

fn full_files() -> Vec<Case> {
    let all = || first_numbers(MOST_IN_POLICY);
    let upper = first_numbers(MOST_RULES)[2 * MOST_IN_POLICY..].to_vec();
    let script = Some(script(1, DEL, MOST_COMMANDS));
    let rules = rules(MOST_RULES as u16);
    let most = Given { rules, initial: all(), target: all(), keep: Some(all()), script, ..Given::default() };
    let apart = Given { target: upper, keep: Some(vec![]), script: None, ..most.clone() };
    let most = [44049, 44048, 65535].map(|size| Case::new(most.clone().permitting(), size));
    most.into_iter().chain([32777, 32775].map(|size| Case::new(apart.clone(), size))).collect()
}

fn long_lists() -> Vec<Case> {
    let (all, long) = (first_numbers(MOST_IN_POLICY), first_numbers(MOST_IN_POLICY + 1));
    let few =
        Given { rules: rules(600), initial: all.clone(), target: all.clone(), keep: Some(all), ..Given::default() };
    let wrong = [
        Given { initial: long.clone(), ..few.clone() },
        Given { target: long.clone(), ..few.clone() },
        Given { keep: Some(long), ..few.clone() },
    ];
    [few].into_iter().chain(wrong).map(|given| Case::new(given, 21081)).collect()
}

fn long_scripts() -> Vec<Case> {
    let scripted = |script, size| Case::new(Given { script: Some(script), ..one() }, size);
    vec![
        scripted(script(1, DEL, MOST_COMMANDS), 10286),
        scripted(script(2, MOV, MOST_COMMANDS), 12000),
        scripted(script(2, MOV, MOST_COMMANDS - 1), 10278),
        scripted(script(1, DEL, MOST_COMMANDS + 1), 12000),
    ]
}

/// A rule too many, and another fault beside it.
fn long_catalogues() -> Vec<Case> {
    let over = rules(MOST_RULES as u16 + 1);
    let odd = [&over[..], &[0]].concat();
    let equal = rule_from(0, true).repeat(MOST_RULES + 1);
    [over, odd, equal].map(|rules| Case::new(Given { rules, ..one() }, 40000)).into()
}

fn in_small_room(all: Vec<Given>) -> Vec<Case> {
    all.into_iter().map(|given| Case::new(given, SMALL)).collect()
}

pub fn all() -> Vec<Group> {
    let limits = [full_files(), long_lists(), long_scripts(), long_catalogues()];
    let groups = [
        ("shape", shape_cases()),
        ("room", rooms()),
        ("fault", fault_cases()),
        ("pair", in_small_room(pairs())),
        ("double", in_small_room(doubles())),
        ("limit", limits.into_iter().flatten().collect()),
    ];
    let trial = |case: Case| Trial { bytes: case.bytes(), text: case.text() };
    groups.map(|(name, cases)| (name, cases.into_iter().map(trial).collect())).into()
}
