//! The judge on all short scripts, also those with places and rules out of range.

use super::held::{must, Held};
use super::literal::{self, is_safe, keeps_the_default, lists_of, patterns, policies, Pattern};
use crate::commands::Command;
use crate::judge::judge;
use std::collections::BTreeMap;

fn type_1_commands(rules: u16) -> Vec<Command> {
    (0..=rules).flat_map(|r| [Command::App { r }, Command::DelRule { r }]).collect()
}

fn type_2_commands(rules: u16) -> Vec<Command> {
    let places = 0..=rules + 1;
    let inserts = (0..=rules + 2).flat_map(|i| (0..=rules).map(move |r| Command::Ins { i, r }));
    let deletes = places.clone().map(|i| Command::DelPlace { i });
    let moves = places.clone().flat_map(|i| places.clone().map(move |j| Command::Mov { i, j }));
    inserts.chain(deletes).chain(moves).collect()
}

struct Bench {
    rules: u16,
    policies: Vec<Vec<u16>>,
    patterns: Vec<Pattern>,
    counts: BTreeMap<usize, usize>,
}

impl Bench {
    /// The judge's number for one script and target, compared with the literal verdict.
    fn judge(&mut self, initial: &[u16], target: &[u16], script: &[Command]) -> Result<usize, String> {
        let found = judge(usize::from(self.rules), initial, target, script).numbers();
        let literal = literal::verdict(initial, target, script, self.rules);
        must(found == literal, || {
            format!("verdict {found:?}, literally {literal:?}: initial {initial:?} target {target:?} {script:?}")
        })?;
        *self.counts.entry(found[0]).or_default() += 1;
        Ok(found[0])
    }

    /// A script that runs, judged with its last list as the target.
    fn test_meaning(&mut self, script: &[Command], lists: &[Vec<u16>]) -> Held {
        let (initial, target) = (&lists[0], &lists[lists.len() - 1]);
        let holds = match self.judge(initial, target, script)? {
            30 => true,
            31 => keeps_the_default(lists, &self.patterns),
            32 => is_safe(lists, &self.patterns) && keeps_the_default(lists, &self.patterns),
            _ => false,
        };
        must(holds, || format!("the verdict's meaning fails: {lists:?} {script:?}"))
    }

    fn test_script(&mut self, initial: &[u16], script: &[Command]) -> Held {
        let (lists, broken) = lists_of(initial, script, self.rules);
        let last = &lists[lists.len() - 1];
        if broken.is_none() {
            self.test_meaning(script, &lists)?;
        }
        // A broken script, and any script with another target, must get 20 to 24.
        let other = &self.policies[(script.len() + last.len()) % self.policies.len()].clone();
        if broken.is_some() || other != last {
            let number = self.judge(initial, other, script)?;
            must((20..=24).contains(&number), || format!("{number} with target {other:?}: {script:?}"))?;
        }
        Ok(())
    }

    /// Tests the script and all that begin with it, up to so many more commands.
    fn test_from(&mut self, initial: &[u16], script: &mut Vec<Command>, all: &[Command], more: usize) -> Held {
        self.test_script(initial, script)?;
        if more == 0 {
            return Ok(());
        }
        for &command in all {
            script.push(command);
            self.test_from(initial, script, all, more - 1)?;
            script.pop();
        }
        Ok(())
    }
}

/// Tests all scripts of up to so many commands over so many rules.
pub fn test_all(rules: u16, commands: usize) -> Result<String, String> {
    let mut bench = Bench { rules, policies: policies(rules), patterns: patterns(rules), counts: BTreeMap::new() };
    for initial in &bench.policies.clone() {
        for all in [type_1_commands(rules), type_2_commands(rules)] {
            bench.test_from(initial, &mut Vec::new(), &all, commands)?;
        }
    }
    let counts: Vec<String> = bench.counts.iter().map(|(verdict, count)| format!("{count} of {verdict}")).collect();
    Ok(format!("{rules} rules, up to {commands} commands, verdicts {}, all hold", counts.join(", ")))
}
