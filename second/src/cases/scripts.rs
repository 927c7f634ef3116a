//! Scripts for every verdict: commands that fail at several steps, scripts that
//! end elsewhere, and lists that aren't ordered or aren't full.

use super::case::{both_of_all, Case};
use super::given::{given, Given};
use crate::commands::Command::{self, *};
use crate::format::numbers;
use crate::replay::{replay, RunningList};

const RULES: u16 = 7;

fn bases() -> [Given; 2] {
    let base = given(RULES, &[0, 1, 2, 3, 4], &[4, 0, 5, 2, 1]);
    [base.clone().planned(1), base.planned(2)]
}

/// The list after some commands.
fn after(given: &Given, commands: &[Command]) -> Vec<u16> {
    let mut list = RunningList::new(&numbers(&given.initial), usize::from(RULES));
    replay(&mut list, commands, |_, _| ()).expect("commands that pass");
    list.rules().to_vec()
}

/// Commands that fail on a list, by each fault; some have two.
fn failing(kind: u8, list: &[u16]) -> Vec<Command> {
    let there = list[0];
    let absent = RULES - 1;
    let length = list.len() as u16;
    match kind {
        1 => vec![
            App { r: there },
            App { r: RULES },
            App { r: 65535 },
            DelRule { r: absent },
            DelRule { r: RULES },
            DelRule { r: 1024 },
        ],
        _ => vec![
            Ins { i: 1, r: there },
            Ins { i: 0, r: there },
            Ins { i: 0, r: absent },
            Ins { i: length + 2, r: absent },
            Ins { i: 1, r: RULES },
            Ins { i: 0, r: 65535 },
            DelPlace { i: 0 },
            DelPlace { i: length + 1 },
            Mov { i: 0, j: 1 },
            Mov { i: 1, j: 0 },
            Mov { i: length + 1, j: 1 },
            Mov { i: 1, j: length + 1 },
        ],
    }
}

/// A plan with a failing command put in first, in the middle, and last.
fn broken() -> Vec<Given> {
    let mut all = Vec::new();
    for (kind, base) in (1..).zip(bases()) {
        let commands = base.commands();
        for at in [0, commands.len() / 2, commands.len()] {
            let (before, behind) = commands.split_at(at);
            for command in failing(kind, &after(&base, before)) {
                all.push(base.clone().script(kind, &[before, &[command], behind].concat()));
            }
        }
    }
    all
}

/// Plans without their last commands.
fn elsewhere() -> Vec<Given> {
    let mut all = Vec::new();
    for (kind, base) in (1..).zip(bases()) {
        let commands = base.commands();
        for left in [0, 1, commands.len() - 1] {
            all.push(base.clone().script(kind, &commands[..left]));
        }
    }
    all
}

/// A rule moved and put back, after some moves that change nothing: the list
/// isn't ordered from the smaller of both places on.
fn unordered() -> Vec<Given> {
    let policy = [0, 1, 2, 3, 4, 5];
    let mut all = Vec::new();
    for (waits, i, j) in [(0, 1, 2), (0, 6, 5), (1, 2, 6), (2, 4, 3), (5, 6, 1), (9, 3, 4)] {
        let mut commands = vec![Mov { i, j: i }; waits];
        commands.extend([Mov { i, j }, Mov { i: j, j: i }]);
        all.push(given(RULES, &policy, &policy).script(2, &commands));
    }
    all
}

/// The last rules deleted and put in again.
fn not_full() -> Vec<Given> {
    let policy = [3, 1, 2];
    let mut all = Vec::new();
    for gone in 1..=policy.len() {
        let places = policy.len() - gone..policy.len();
        let deletes = places.clone().rev().map(|index| DelPlace { i: index as u16 + 1 });
        let inserts = places.map(|index| Ins { i: index as u16 + 1, r: policy[index] });
        all.push(given(RULES, &policy, &policy).script(2, &deletes.chain(inserts).collect::<Vec<_>>()));
    }
    all
}

pub fn all() -> Vec<Case> {
    both_of_all([bases().to_vec(), broken(), elsewhere(), unordered(), not_full()].concat())
}
