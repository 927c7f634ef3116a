//! The two planners: scripts that lead from the initial policy to the target.

use crate::commands::{script_field, Command};
use crate::file::{check, put, Contents, Values};
use crate::format::{numbers, Refusal, MOST_RULES};

/// A script with the number of rules it leaves untouched.
#[derive(Clone, Debug, PartialEq, Eq)]
pub struct Plan {
    pub kind: u8,
    pub kept: usize,
    pub commands: Vec<Command>,
}

/// For each rule number its index in a policy, if it is there.
fn indices(policy: &[u16]) -> Vec<Option<usize>> {
    let mut table = vec![None; MOST_RULES];
    for (index, &rule) in policy.iter().enumerate() {
        table[usize::from(rule)] = Some(index);
    }
    table
}

/// For each rule number whether it is in the list.
fn membership(list: &[u16]) -> Vec<bool> {
    let mut table = vec![false; MOST_RULES];
    for &rule in list {
        table[usize::from(rule)] = true;
    }
    table
}

// ---- Append and delete ----

/// Length of the longest front of the target that occurs in order in the initial.
fn kept_front(initial: &[u16], target: &[u16]) -> usize {
    let mut rest = initial.iter();
    target.iter().take_while(|rule| rest.any(|other| other == *rule)).count()
}

pub fn append_and_delete(initial: &[u16], target: &[u16]) -> Plan {
    let kept = kept_front(initial, target);
    let stays = membership(&target[..kept]);
    let gone = initial.iter().rev().filter(|&&rule| !stays[usize::from(rule)]);
    let deletes = gone.map(|&r| Command::DelRule { r });
    let appends = target[kept..].iter().map(|&r| Command::App { r });
    Plan { kind: 1, kept, commands: deletes.chain(appends).collect() }
}

// ---- Insert, delete and move ----

/// The planner's own keep list: each common rule after the last one kept.
pub fn own_keep_list(initial: &[u16], target: &[u16]) -> Vec<u16> {
    let in_initial = indices(initial);
    let mut next = 0;
    let mut keep = Vec::new();
    for &rule in target {
        if let Some(index) = in_initial[usize::from(rule)].filter(|&index| index >= next) {
            keep.push(rule);
            next = index + 1;
        }
    }
    keep
}

struct Stages<'a> {
    target: &'a [u16],
    list: Vec<u16>,
    front: usize,
    in_front: Vec<bool>,
    settled: Vec<bool>,
    commands: Vec<Command>,
}

fn place(index: usize) -> u16 {
    (index + 1) as u16
}

impl Stages<'_> {
    /// Index of a rule that is in the list at `from` or later.
    fn find(&self, rule: u16, from: usize) -> usize {
        let rest = &self.list[from..];
        from + rest.iter().position(|&other| other == rule).expect("a rule in the running list")
    }

    fn join_settled(&mut self, rule: u16) {
        self.front += 1;
        self.in_front[usize::from(rule)] = true;
        self.settled[usize::from(rule)] = true;
    }

    /// All rules before `end` that aren't in the front join it, waiting.
    fn join_waiting(&mut self, end: usize) {
        for &rule in &self.list[self.front..end] {
            self.in_front[usize::from(rule)] = true;
        }
        self.front = end;
    }

    fn insert(&mut self, rule: u16) {
        self.commands.push(Command::Ins { i: place(self.front), r: rule });
        self.list.insert(self.front, rule);
    }

    /// Moves a rule that stands at or after the front right after the front.
    fn pull(&mut self, rule: u16) {
        let index = self.find(rule, self.front);
        if index != self.front {
            self.commands.push(Command::Mov { i: place(index), j: place(self.front) });
            self.list[self.front..=index].rotate_right(1);
        }
    }

    fn first_stage(&mut self, in_initial: &[bool], kept: &[bool]) {
        for &rule in self.target {
            let number = usize::from(rule);
            if !in_initial[number] {
                self.insert(rule);
            } else if kept[number] {
                self.join_waiting(self.find(rule, self.front));
            } else if !self.in_front[number] {
                self.pull(rule);
            } else {
                continue;
            }
            self.join_settled(rule);
        }
        self.join_waiting(self.list.len());
    }

    /// The index a waiting rule at `index` gets when it moves down.
    fn goal(&self, index: usize, in_target: usize) -> usize {
        let mut following = self.target[in_target + 1..].iter();
        match following.find(|&&rule| self.settled[usize::from(rule)]) {
            Some(&rule) => self.find(rule, index) - 1,
            None => self.list.len() - 1,
        }
    }

    fn second_stage(&mut self, in_target: &[Option<usize>]) {
        for index in (0..self.list.len()).rev() {
            let number = usize::from(self.list[index]);
            if self.settled[number] {
                continue;
            }
            if let Some(target_index) = in_target[number] {
                let goal = self.goal(index, target_index);
                self.commands.push(Command::Mov { i: place(index), j: place(goal) });
                self.list[index..=goal].rotate_left(1);
                self.settled[number] = true;
            } else {
                self.commands.push(Command::DelPlace { i: place(index) });
                self.list.remove(index);
            }
        }
    }
}

pub fn insert_delete_and_move(initial: &[u16], target: &[u16], keep: Option<&[u16]>) -> Plan {
    let keep = keep.map_or_else(|| own_keep_list(initial, target), <[u16]>::to_vec);
    let mut stages = Stages {
        target,
        list: initial.to_vec(),
        front: 0,
        in_front: vec![false; MOST_RULES],
        settled: vec![false; MOST_RULES],
        commands: Vec::new(),
    };
    stages.first_stage(&membership(initial), &membership(&keep));
    stages.second_stage(&indices(target));
    Plan { kind: 2, kept: keep.len(), commands: stages.commands }
}

// ---- Entry over field values ----

/// What the entry hands back beside the lent place.
#[derive(Clone, Copy, Debug, PartialEq, Eq)]
pub struct Written {
    pub bytes: usize,
    pub kept: usize,
    pub commands: usize,
}

/// The plan of the given type, 1 or 2.
pub fn plan(kind: u8, initial: &[u16], target: &[u16], keep: Option<&[u16]>) -> Plan {
    if kind == 1 {
        append_and_delete(initial, target)
    } else {
        insert_delete_and_move(initial, target, keep)
    }
}

/// Plans over accepted contents and writes the script field into a lent place.
pub fn plan_contents(kind: u8, contents: &Contents, place: &mut [u8]) -> Result<Written, Refusal> {
    let keep = contents.keep.map(numbers);
    let plan = plan(kind, &numbers(contents.initial), &numbers(contents.target), keep.as_deref());
    let bytes = put(&script_field(kind, &plan.commands), place)?;
    Ok(Written { bytes, kept: plan.kept, commands: plan.commands.len() })
}

/// The same over field values, tested first.
pub fn plan_values(kind: u8, values: &Values, place: &mut [u8]) -> Result<Written, Refusal> {
    plan_contents(kind, &check(values)?, place)
}

#[cfg(test)]
mod tests {
    use super::*;
    use Command::*;

    #[test]
    fn first_example_type_2() {
        let plan = insert_delete_and_move(&[0, 1, 2, 3], &[1, 0, 4, 3], None);
        assert_eq!(own_keep_list(&[0, 1, 2, 3], &[1, 0, 4, 3]), [1, 3]);
        assert_eq!(plan.commands, [Ins { i: 3, r: 4 }, DelPlace { i: 4 }, Mov { i: 1, j: 2 }]);
    }

    #[test]
    fn first_example_type_1() {
        let plan = append_and_delete(&[0, 1, 2, 3], &[1, 0, 4, 3]);
        let dels = [DelRule { r: 3 }, DelRule { r: 2 }, DelRule { r: 0 }];
        let apps = [App { r: 0 }, App { r: 4 }, App { r: 3 }];
        assert_eq!(plan, Plan { kind: 1, kept: 1, commands: [dels, apps].concat() });
    }

    #[test]
    fn the_keep_list_counts() {
        let with = |keep| insert_delete_and_move(&[0, 1, 2], &[2, 0, 1], keep).commands;
        assert_eq!(with(Some(&[0, 1])), [Mov { i: 3, j: 1 }]);
        assert_eq!(with(None), [Mov { i: 2, j: 3 }, Mov { i: 1, j: 2 }]);
    }

    #[test]
    fn nothing_kept_and_one_rule_found_in_place() {
        let plan = insert_delete_and_move(&[0, 1], &[1, 0], Some(&[]));
        assert_eq!(plan, Plan { kind: 2, kept: 0, commands: vec![Mov { i: 2, j: 1 }] });
    }

    #[test]
    fn equal_policies_need_no_command() {
        for policy in [&[][..], &[2, 0, 1][..]] {
            assert!(append_and_delete(policy, policy).commands.is_empty());
            assert!(insert_delete_and_move(policy, policy, None).commands.is_empty());
            assert!(insert_delete_and_move(policy, policy, Some(&[])).commands.is_empty());
        }
    }

    #[test]
    fn the_field_fills_the_first_bytes_of_the_place() {
        let mut place = [9; 6];
        let written = plan_values(2, &Values::default(), &mut place);
        assert_eq!(written, Ok(Written { bytes: 4, kept: 0, commands: 0 }));
        assert_eq!(place, [5, 0, 1, 2, 9, 9]);
        let refused = plan_values(1, &Values::default(), &mut place[..3]);
        assert_eq!(refused, Err(Refusal { number: 13, position: 4 }));
        assert_eq!(place, [5, 0, 1, 2, 9, 9]);
    }
}
