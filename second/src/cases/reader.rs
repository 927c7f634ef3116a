//! Cases for the program `reader_cases`, each a file: cut at every byte, with other
//! tags, lengths and values, with fields left out or out of order, and at the limits.

use super::base::{base, rule_from, ENDS};
use super::expected::read_line;
use super::given::field;
use super::row::{Group, Trial};
use crate::format::{
    list_value, MOST_COMMANDS, MOST_IN_POLICY, MOST_RULES, TAG_DEFAULT, TAG_INITIAL, TAG_KEEP, TAG_RULE, TAG_SCRIPT,
    TAG_TARGET,
};

/// Which field of the base is which; its five rules come first.
const INITIAL: usize = 5;
const TARGET: usize = 6;
const DEFAULT: usize = 7;
const KEEP: usize = 8;
const SCRIPT: usize = 9;

fn with_field(index: usize, new: Vec<u8>) -> Vec<u8> {
    let mut fields = base().fields();
    fields[index] = new;
    fields.concat()
}

fn with_list(index: usize, tag: u8, list: &[u16]) -> Vec<u8> {
    with_field(index, field(tag, &list_value(list)))
}

/// The first bytes, as many as you like; and all of them with more behind.
fn cut() -> Vec<Vec<u8>> {
    let whole = base().file();
    let longer = (1..=3).map(|more| [&whole[..], &vec![0; more]].concat());
    (0..=whole.len()).map(|size| whole[..size].to_vec()).chain(longer).collect()
}

fn tags() -> Vec<Vec<u8>> {
    let mut files = Vec::new();
    for (index, bytes) in base().fields().into_iter().enumerate() {
        for tag in [0, 1, 2, 3, 4, 5, 6, 7, 255] {
            if tag != bytes[0] {
                files.push(with_field(index, [&[tag], &bytes[1..]].concat()));
            }
        }
    }
    files
}

fn lengths() -> Vec<Vec<u8>> {
    let fields = base().fields();
    let mut files = Vec::new();
    for index in [0, 4, INITIAL, TARGET, DEFAULT, KEEP, SCRIPT] {
        for size in [0, 1, 26, 28, 1025, 1026, 10242, 10246, 65535u16] {
            let bytes = &fields[index];
            files.push(with_field(index, [&bytes[..1], &size.to_be_bytes(), &bytes[3..]].concat()));
        }
    }
    files
}

/// A rule that is none: its action is 2, or a low is above its high; and one that is there already.
fn rules() -> Vec<Vec<u8>> {
    let fields = base().fields();
    let action: fn(&mut Vec<u8>, usize, usize) = |rule, _, _| rule[0] = 2;
    let falling: fn(&mut Vec<u8>, usize, usize) = |rule, at, width| {
        rule[at] = 255;
        rule[at + width] = 0;
    };
    let mut files = Vec::new();
    for (spoil, (at, width)) in [(action, (0, 0))].into_iter().chain(ENDS.map(|ends| (falling, ends))) {
        for index in [0, 2, 4] {
            let mut rule = rule_from(9 + index as u16, true);
            spoil(&mut rule, at, width);
            files.push(with_field(index, field(TAG_RULE, &rule)));
        }
    }
    files.extend([(1, 0), (2, 0), (4, 3), (3, 1)].map(|(index, other)| with_field(index, fields[other].clone())));
    files
}

fn lists() -> Vec<Vec<u8>> {
    let policies: [&[u16]; 7] = [&[0, 5], &[65535], &[0, 0], &[1, 2, 1], &[5, 5], &[4, 3, 2, 1, 0], &[]];
    let keeps: [&[u16]; 8] = [&[], &[3, 1], &[1, 1], &[9], &[0, 3], &[1, 0], &[1], &[2]];
    let mut files = Vec::new();
    files.extend(policies.map(|list| with_list(INITIAL, TAG_INITIAL, list)));
    files.extend(policies.map(|list| with_list(TARGET, TAG_TARGET, list)));
    files.extend(keeps.map(|list| with_list(KEEP, TAG_KEEP, list)));
    files
}

/// Defaults of each kind of value, and of the lengths beside 1.
fn defaults() -> Vec<Vec<u8>> {
    let values: [&[u8]; 8] = [&[0], &[1], &[2], &[128], &[255], &[], &[1, 1], &[0, 1]];
    values.map(|value| with_field(DEFAULT, field(TAG_DEFAULT, value))).to_vec()
}

fn scripts() -> Vec<Vec<u8>> {
    let values: [&[u8]; 15] = [
        &[0],
        &[1],
        &[2],
        &[3],
        &[1, 1, 0, 0, 0, 0],
        &[1, 2, 0, 1, 0, 0],
        &[1, 3, 0, 1, 0, 0],
        &[1, 1, 0, 1, 0, 1],
        &[2, 3, 0, 1, 0, 1],
        &[2, 4, 0, 1, 0, 0],
        &[2, 4, 0, 1, 0, 1],
        &[2, 5, 0, 1, 0, 1],
        &[2, 1, 0, 1, 0, 0],
        &[2, 6, 0, 1, 0, 1],
        &[2, 5, 0, 1, 0, 1, 0, 0, 0, 0, 0],
    ];
    values.map(|value| with_field(SCRIPT, field(TAG_SCRIPT, value))).to_vec()
}

/// Fields left out, the last ones, the default and the keep list.
fn left_out() -> Vec<Vec<u8>> {
    let fields = base().fields();
    let without = |from: usize, to: usize| [&fields[..from], &fields[to..]].concat().concat();
    let between = [(DEFAULT, KEEP), (KEEP, SCRIPT), (DEFAULT, SCRIPT), (TARGET, DEFAULT)];
    let mut files = between.map(|(from, to)| without(from, to)).to_vec();
    files.extend([DEFAULT, KEEP, SCRIPT, TARGET, INITIAL].map(|count| fields[..count].concat()));
    files
}

/// A default that stands twice, or in the place of another.
fn moved_defaults() -> Vec<Vec<u8>> {
    let mut fields = base().fields();
    let default = fields.remove(DEFAULT);
    let at = |index: usize| [&fields[..index], std::slice::from_ref(&default), &fields[index..]].concat();
    let mut files = [0, 1, INITIAL, TARGET, KEEP, SCRIPT].map(|index| at(index).concat()).to_vec();
    files.extend([KEEP, SCRIPT].map(|index| [at(DEFAULT)[..index].concat(), default.clone()].concat()));
    files
}

fn swapped(one: usize, other: usize) -> Vec<u8> {
    let mut fields = base().fields();
    fields.swap(one, other);
    fields.concat()
}

/// Fields out of order, and files of a few bytes.
fn out_of_order() -> Vec<Vec<u8>> {
    let short: [&[u8]; 10] = [
        &[],
        &[1],
        &[1, 0],
        &[2, 0, 0],
        &[2, 0, 0, 3, 0, 0],
        &[3, 0, 0],
        &[6, 0, 1, 1],
        &[2, 0, 0, 3, 0, 0, 6, 0, 1, 1],
        &[2, 0, 0, 3, 0, 0, 5, 0, 1, 1],
        &[2, 0, 0, 3, 0, 0, 6, 0, 1, 1, 5, 0, 1, 1],
    ];
    let pairs = [(KEEP, SCRIPT), (DEFAULT, SCRIPT), (INITIAL, TARGET), (0, INITIAL)];
    let mut files = pairs.map(|(one, other)| swapped(one, other)).to_vec();
    files.extend(short.map(<[u8]>::to_vec));
    files
}

fn rule_fields(count: usize) -> Vec<u8> {
    (0..count as u16).flat_map(|number| field(TAG_RULE, &rule_from(number, true))).collect()
}

fn list_field(tag: u8, list: std::ops::Range<usize>) -> Vec<u8> {
    field(tag, &list_value(&list.map(|number| number as u16).collect::<Vec<_>>()))
}

/// As many commands of a type as you like, all the same.
fn script_field(kind: u8, command: [u8; 5], count: usize) -> Vec<u8> {
    field(TAG_SCRIPT, &[&[kind], &command.repeat(count)[..]].concat())
}

/// Lists of 512 numbers, and each in its turn with one more.
fn long_lists() -> Vec<Vec<u8>> {
    let (most, more) = (MOST_IN_POLICY, MOST_IN_POLICY + 1);
    let file = |lists: &[(u8, usize)]| {
        let fields = lists.iter().flat_map(|&(tag, count)| list_field(tag, 0..count));
        rule_fields(600).into_iter().chain(fields).collect()
    };
    vec![
        file(&[(TAG_INITIAL, most), (TAG_TARGET, most), (TAG_KEEP, most)]),
        file(&[(TAG_INITIAL, more), (TAG_TARGET, 0)]),
        file(&[(TAG_INITIAL, 0), (TAG_TARGET, more)]),
        file(&[(TAG_INITIAL, most), (TAG_TARGET, most), (TAG_KEEP, more)]),
    ]
}

/// As many rules, numbers and commands as there may be, and one more.
fn limits() -> Vec<Vec<u8>> {
    let policies = [list_field(TAG_INITIAL, 0..1), list_field(TAG_TARGET, 0..1)].concat();
    let scripted =
        |kind, command, count| [rule_fields(1), policies.clone(), script_field(kind, command, count)].concat();
    let apart =
        [list_field(TAG_INITIAL, 0..MOST_IN_POLICY), list_field(TAG_TARGET, MOST_IN_POLICY..MOST_RULES)].concat();
    let (app, del, mov) = ([1, 0, 0, 0, 0], [2, 0, 0, 0, 0], [5, 0, 1, 0, 1]);
    let mut files = vec![
        [rule_fields(MOST_RULES), policies.clone()].concat(),
        [rule_fields(MOST_RULES + 1), policies.clone()].concat(),
        [rule_fields(MOST_RULES), field(TAG_RULE, &[]), policies.clone()].concat(),
    ];
    files.extend(long_lists());
    files.extend([
        scripted(1, app, MOST_COMMANDS),
        scripted(1, app, MOST_COMMANDS + 1),
        scripted(2, mov, MOST_COMMANDS),
        [
            rule_fields(MOST_RULES),
            apart,
            field(TAG_DEFAULT, &[1]),
            field(TAG_KEEP, &[]),
            script_field(1, del, MOST_COMMANDS),
        ]
        .concat(),
    ]);
    files
}

pub fn all() -> Vec<Group> {
    let fields_moved = [left_out(), moved_defaults()].concat();
    let values = [rules(), lists(), defaults(), fields_moved, scripts(), out_of_order()].concat();
    let groups = [("cut", cut()), ("tag", tags()), ("length", lengths()), ("value", values), ("limit", limits())];
    let trial = |file: Vec<u8>| Trial { text: read_line(&file) + "\n", bytes: file };
    groups.map(|(name, files)| (name, files.into_iter().map(trial).collect())).into()
}
