//! The planners on all pairs of policies and all accepted keep lists.

use super::held::{must, Held};
use super::literal::{
    changes_once, in_order, keeps_the_default, lists_of, own_choice, patterns, policies, verdict, Pattern,
};
use crate::commands::Command;
use crate::file::{check, Values};
use crate::format::list_value;
use crate::judge::judge;
use crate::plan::{append_and_delete, insert_delete_and_move, Plan};
use crate::rule::plain_rule;
use std::collections::HashMap;

struct Bench {
    rules: u16,
    policies: Vec<Vec<u16>>,
    patterns: Vec<Pattern>,
    catalogue: Vec<u8>,
}

/// A plan that is under test, with the words for a fault.
struct Case<'a> {
    initial: &'a [u16],
    target: &'a [u16],
    keep: Option<&'a [u16]>,
    plan: Plan,
}

impl Case<'_> {
    fn must(&self, holds: bool, what: &str) -> Held {
        must(holds, || {
            let Case { initial, target, keep, plan } = self;
            format!("{what}: initial {initial:?} target {target:?} keep {keep:?} plan {plan:?}")
        })
    }

    fn count(&self, wanted: fn(&Command) -> bool) -> usize {
        self.plan.commands.iter().filter(|command| wanted(command)).count()
    }
}

impl Bench {
    fn accepts(&self, initial: &[u16], target: &[u16], keep: &[u16]) -> Result<bool, String> {
        let values = Values {
            rules: &self.catalogue,
            initial: &list_value(initial),
            target: &list_value(target),
            default: None,
            keep: Some(&list_value(keep)),
            script: None,
        };
        let accepted = check(&values).is_ok();
        let literally = in_order(keep, initial) && in_order(keep, target);
        must(accepted == literally, || format!("acceptance of keep {keep:?} for {initial:?} and {target:?}"))?;
        Ok(accepted)
    }

    /// The lists of a plan, which must run and end at the target, and its verdict.
    fn run(&self, case: &Case) -> Result<(Vec<Vec<u16>>, usize), String> {
        let Case { initial, target, plan, .. } = case;
        let (lists, broken) = lists_of(initial, &plan.commands, self.rules);
        case.must(broken.is_none() && lists[lists.len() - 1] == *target, "doesn't end at the target")?;
        let found = judge(usize::from(self.rules), initial, target, &plan.commands).numbers();
        let literal = verdict(initial, target, &plan.commands, self.rules);
        case.must(found == literal, "the verdict isn't the literal one")?;
        Ok((lists, found[0]))
    }

    fn test_type_1(&self, initial: &[u16], target: &[u16], shortest: usize) -> Held {
        let case = Case { initial, target, keep: None, plan: append_and_delete(initial, target) };
        let (lists, verdict) = self.run(&case)?;
        let count = case.plan.commands.len();
        case.must(count == initial.len() + target.len() - 2 * case.plan.kept, "count of type 1")?;
        case.must(count == shortest, "a shorter type 1 script exists")?;
        case.must(verdict == 31 || verdict == 32, "verdict of type 1")?;
        case.must(
            keeps_the_default(&lists, &self.patterns),
            "a flow that both decide as the default is decided otherwise",
        )
    }

    fn test_type_2(&self, initial: &[u16], target: &[u16], keep: Option<&[u16]>) -> Held {
        let case = Case { initial, target, keep, plan: insert_delete_and_move(initial, target, keep) };
        let (lists, verdict) = self.run(&case)?;
        let common = initial.iter().filter(|rule| target.contains(rule)).count();
        let inserts = case.count(|command| matches!(command, Command::Ins { .. }));
        let deletes = case.count(|command| matches!(command, Command::DelPlace { .. }));
        let moves = case.count(|command| matches!(command, Command::Mov { i, j } if i != j));
        case.must(inserts == target.len() - common, "count of inserts")?;
        case.must(deletes == initial.len() - common, "count of deletes")?;
        case.must(moves <= common - case.plan.kept, "count of moves")?;
        case.must(inserts + deletes + moves == case.plan.commands.len(), "an idle command")?;
        let kept = keep.map_or_else(|| own_choice(initial, target).len(), <[u16]>::len);
        case.must(kept == case.plan.kept, "count of kept rules")?;
        case.must(verdict == 32, "verdict of type 2")?;
        case.must(changes_once(&lists, &self.patterns), "a flow changes twice")
    }

    /// For each policy the length of the shortest type 1 script from the initial one.
    fn shortest(&self, initial: &[u16]) -> HashMap<Vec<u16>, usize> {
        let mut lengths = HashMap::from([(initial.to_vec(), 0)]);
        let mut queue = vec![initial.to_vec()];
        let mut at = 0;
        while at < queue.len() {
            let list = queue[at].clone();
            let length = lengths[&list] + 1;
            for r in 0..self.rules {
                let command = if list.contains(&r) { Command::DelRule { r } } else { Command::App { r } };
                let next = lists_of(&list, &[command], self.rules).0.remove(1);
                if !lengths.contains_key(&next) {
                    lengths.insert(next.clone(), length);
                    queue.push(next);
                }
            }
            at += 1;
        }
        lengths
    }

    /// Tests one pair; gives the number of type 2 plans.
    fn test_pair(&self, initial: &[u16], target: &[u16], shortest: usize) -> Result<usize, String> {
        self.test_type_1(initial, target, shortest)?;
        self.test_type_2(initial, target, None)?;
        let mut plans = 1;
        for keep in self.policies.iter().filter(|keep| keep.len() <= initial.len().min(target.len())) {
            if self.accepts(initial, target, keep)? {
                self.test_type_2(initial, target, Some(keep))?;
                plans += 1;
            }
        }
        Ok(plans)
    }
}

/// Tests all pairs of policies over so many rules.
pub fn test_all(rules: u16) -> Result<String, String> {
    let bench = Bench {
        rules,
        policies: policies(rules),
        patterns: patterns(rules),
        catalogue: (0..rules).flat_map(plain_rule).collect(),
    };
    let (mut pairs, mut plans) = (0, 0);
    for initial in &bench.policies {
        let shortest = bench.shortest(initial);
        for target in &bench.policies {
            plans += bench.test_pair(initial, target, shortest[target])?;
            pairs += 1;
        }
    }
    let patterns = bench.patterns.len();
    Ok(format!(
        "{rules} rules, {pairs} pairs, {pairs} plans of type 1, {plans} of type 2, {patterns} patterns, all hold"
    ))
}
