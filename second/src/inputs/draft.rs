//! Drafts of files: contents that the reader accepts.

use super::damage::Field;
use super::random::Random;
use super::rules;
use crate::commands::{script_value, Command};
use crate::format::{
    list_value, MOST_IN_POLICY, MOST_RULES, TAG_DEFAULT, TAG_INITIAL, TAG_KEEP, TAG_RULE, TAG_SCRIPT, TAG_TARGET,
};

/// A script's type and commands.
pub type Script = (u8, Vec<Command>);

pub struct Draft {
    pub rules: Vec<Vec<u8>>,
    pub initial: Vec<u16>,
    pub target: Vec<u16>,
    pub permits_by_default: bool,
    pub keep: Option<Vec<u16>>,
    pub script: Option<Script>,
}

fn any_size(random: &mut Random) -> usize {
    match random.below(100) {
        0..=74 => random.between(0, 8),
        75..=96 => random.between(9, 60),
        _ => random.between(61, MOST_RULES),
    }
}

/// An order of some of the rules; the length is at most a policy's.
fn any_policy(random: &mut Random, rules: usize, most: usize) -> Vec<u16> {
    let mut policy: Vec<u16> = (0..rules as u16).collect();
    random.shuffle(&mut policy);
    let least = if random.one_in(2) { rules.min(most) / 2 } else { 0 };
    policy.truncate(random.between(least, rules.min(most)));
    policy
}

/// A few rules of the policy moved, left out, or put in.
fn edited(random: &mut Random, policy: &[u16], rules: usize) -> Vec<u16> {
    let mut list = policy.to_vec();
    for _ in 0..=random.below(6) {
        let rule = random.below(rules) as u16;
        let was_there = list.contains(&rule);
        list.retain(|&other| other != rule);
        if list.len() < MOST_IN_POLICY && (was_there || random.one_in(2)) && !random.one_in(4) {
            list.insert(random.between(0, list.len()), rule);
        }
    }
    list
}

fn any_target(random: &mut Random, initial: &[u16], rules: usize) -> Vec<u16> {
    let mut target = initial.to_vec();
    match random.below(10) {
        0 => {}
        1 => target.reverse(),
        2 if !target.is_empty() => target.rotate_left(random.below(initial.len())),
        3 => random.shuffle(&mut target),
        4..=6 if rules > 0 => target = edited(random, initial, rules),
        _ => target = any_policy(random, rules, MOST_IN_POLICY),
    }
    target
}

/// Rules that occur in order in both policies, chosen at random.
fn common_run(random: &mut Random, initial: &[u16], target: &[u16]) -> Vec<u16> {
    let mut rest = initial;
    let mut run = Vec::new();
    for &rule in target {
        let Some(index) = rest.iter().position(|&other| other == rule) else { continue };
        if random.one_in(2) {
            run.push(rule);
            rest = &rest[index + 1..];
        }
    }
    run
}

pub fn any_keep(random: &mut Random, initial: &[u16], target: &[u16]) -> Option<Vec<u16>> {
    match random.below(10) {
        0..=3 => None,
        4 => Some(Vec::new()),
        5 => Some(crate::plan::own_keep_list(initial, target)),
        _ => Some(common_run(random, initial, target)),
    }
}

impl Draft {
    /// A draft without a script.
    pub fn new(random: &mut Random) -> Draft {
        let size = any_size(random);
        Draft::of_size(random, size)
    }

    pub fn of_size(random: &mut Random, size: usize) -> Draft {
        let initial = any_policy(random, size, MOST_IN_POLICY);
        let target = any_target(random, &initial, size);
        let permits_by_default = random.one_in(2);
        let keep = any_keep(random, &initial, &target);
        Draft { rules: rules::catalogue(random, size), initial, target, permits_by_default, keep, script: None }
    }

    pub fn fields(&self) -> Vec<Field> {
        let mut fields: Vec<Field> = self.rules.iter().map(|rule| Field::new(TAG_RULE, rule.clone())).collect();
        fields.push(Field::new(TAG_INITIAL, list_value(&self.initial)));
        fields.push(Field::new(TAG_TARGET, list_value(&self.target)));
        if self.permits_by_default {
            fields.push(Field::new(TAG_DEFAULT, vec![1]));
        }
        if let Some(keep) = &self.keep {
            fields.push(Field::new(TAG_KEEP, list_value(keep)));
        }
        if let Some((kind, commands)) = &self.script {
            fields.push(Field::new(TAG_SCRIPT, script_value(*kind, commands)));
        }
        fields
    }
}
