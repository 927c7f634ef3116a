//! Cases from the maker of inputs, so many of each outcome.

use super::case::{Case, Over};
use super::given::Given;
use crate::file::read;
use crate::format::RULE_BYTES;
use crate::inputs;
use crate::judge::judge_values;
use crate::rule::{is_rule, Flow};
use crate::text::judge_text;
use std::collections::{HashMap, HashSet};

const SEED: u64 = 20;
const INPUTS: u64 = 6000;
const OF_EACH_OUTCOME: usize = 5;
const MOST_BYTES: usize = 1500;
const AMPLE_ROOM: usize = 400;

/// Which outcomes there have been: so many of each kind, none of them twice
/// unless the kind is all that there is to it.
#[derive(Default)]
struct Outcomes {
    kinds: HashMap<String, usize>,
    seen: HashSet<String>,
}

impl Outcomes {
    fn wants(&mut self, outcome: &str) -> bool {
        let words: Vec<&str> = outcome.split_whitespace().collect();
        let count = self.kinds.entry(words[..2].concat()).or_default();
        if *count == OF_EACH_OUTCOME || (!self.seen.insert(outcome.to_string()) && words.len() > 2) {
            return false;
        }
        *count += 1;
        true
    }
}

fn any_flow<'a>(rules: impl Iterator<Item = &'a [u8]>, index: u64) -> Flow {
    let sound: Vec<&[u8]> = rules.filter(|rule| is_rule(rule)).collect();
    match index % 4 {
        0 => inputs::flow(SEED, index),
        _ => inputs::flow_near(&sound, SEED, index),
    }
}

/// A room like the made one, which may be too small, or ample room.
fn any_room(made: usize, index: u64) -> usize {
    if index.is_multiple_of(3) {
        made
    } else {
        AMPLE_ROOM
    }
}

pub fn files() -> Vec<Case> {
    let mut outcomes = Outcomes::default();
    let mut cases = Vec::new();
    for index in 0..INPUTS {
        let file = inputs::make(SEED, index);
        if file.len() <= MOST_BYTES && outcomes.wants(&judge_text(&file)) {
            let flow = any_flow(read(&file).unwrap_or_default().rules.into_iter(), index);
            let room = any_room(inputs::values(SEED, index).plan_room, index);
            cases.push(Case::new(Over::File(file), room, flow));
        }
    }
    cases
}

pub fn lists() -> Vec<Case> {
    let mut outcomes = Outcomes::default();
    let mut cases = Vec::new();
    for index in 0..INPUTS {
        let made = inputs::values(SEED, index);
        let outcome = match judge_values(&made.values()) {
            Ok(verdict) => format!("verdict {:?}", verdict.numbers()),
            Err(refusal) => format!("refused {}", refusal.number),
        };
        if made.rules.len() <= MOST_BYTES && outcomes.wants(&outcome) {
            let flow = any_flow(made.rules.chunks_exact(RULE_BYTES), index);
            let room = any_room(made.plan_room, index);
            let inputs::MadeValues { rules, initial, target, default, keep, script, .. } = made;
            let given = Given { rules, initial, target, default, keep, script };
            cases.push(Case::new(Over::Lists(given), room, flow));
        }
    }
    cases
}
