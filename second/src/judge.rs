//! The judge: replays a script and tests every list for order and fullness.

use crate::commands::{commands_of, Command};
use crate::file::{check, Values};
use crate::format::{numbers, Refusal};
use crate::replay::{replay, Broken, RunningList};

#[derive(Clone, Copy, Debug, PartialEq, Eq)]
pub enum Verdict {
    /// 20 to 24: the replay breaks, or ends elsewhere.
    Broken { number: u8, step: usize },
    /// 30: the first list that isn't ordered and its first unsupported place.
    NotOrdered { step: usize, place: usize },
    /// 31: all lists are ordered, some list isn't full.
    NotFull,
    /// 32: all lists are ordered and full.
    Safe,
}

impl Verdict {
    /// The verdict's number and the numbers that go with it.
    pub fn numbers(self) -> Vec<usize> {
        match self {
            Verdict::Broken { number, step } => vec![usize::from(number), step],
            Verdict::NotOrdered { step, place } => vec![30, step, place],
            Verdict::NotFull => vec![31],
            Verdict::Safe => vec![32],
        }
    }
}

/// A policy with the place of each rule, and how long a front of it has been
/// seen in the list that is being looked through.
struct Support<'a> {
    policy: &'a [u16],
    index: Vec<usize>,
    front: usize,
}

impl<'a> Support<'a> {
    fn new(policy: &'a [u16], catalogue: usize) -> Support<'a> {
        let mut index = vec![usize::MAX; catalogue];
        for (at, &rule) in policy.iter().enumerate() {
            index[usize::from(rule)] = at;
        }
        Support { policy, index, front: 0 }
    }

    /// Whether every rule before this one in the policy has been seen.
    fn supports(&self, rule: u16) -> bool {
        self.index[usize::from(rule)] <= self.front
    }

    fn advance(&mut self, seen: &Seen) {
        while self.policy.get(self.front).is_some_and(|&rule| seen.has(rule)) {
            self.front += 1;
        }
    }

    fn is_full(&self) -> bool {
        self.front == self.policy.len()
    }
}

/// The rules seen in the current list, marked with the number of the look.
struct Seen {
    look: usize,
    marks: Vec<usize>,
}

impl Seen {
    fn has(&self, rule: u16) -> bool {
        self.marks[usize::from(rule)] == self.look
    }
}

struct Judge<'a> {
    initial: Support<'a>,
    target: Support<'a>,
    seen: Seen,
    not_ordered: Option<(usize, usize)>,
    all_full: bool,
}

impl<'a> Judge<'a> {
    fn new(catalogue: usize, initial: &'a [u16], target: &'a [u16]) -> Judge<'a> {
        Judge {
            initial: Support::new(initial, catalogue),
            target: Support::new(target, catalogue),
            seen: Seen { look: 0, marks: vec![0; catalogue] },
            not_ordered: None,
            all_full: true,
        }
    }

    /// The first place of a list that neither policy supports.
    fn first_unsupported(&mut self, list: &[u16]) -> Option<usize> {
        self.seen.look += 1;
        self.initial.front = 0;
        self.target.front = 0;
        for (index, &rule) in list.iter().enumerate() {
            if !self.initial.supports(rule) && !self.target.supports(rule) {
                return Some(index + 1);
            }
            self.seen.marks[usize::from(rule)] = self.seen.look;
            self.initial.advance(&self.seen);
            self.target.advance(&self.seen);
        }
        None
    }

    fn look_at(&mut self, step: usize, list: &[u16]) {
        if self.not_ordered.is_some() {
            return;
        }
        self.not_ordered = self.first_unsupported(list).map(|place| (step, place));
        self.all_full &= self.initial.is_full() || self.target.is_full();
    }

    fn verdict(&self) -> Verdict {
        match self.not_ordered {
            Some((step, place)) => Verdict::NotOrdered { step, place },
            None if self.all_full => Verdict::Safe,
            None => Verdict::NotFull,
        }
    }
}

/// Judges a script over a catalogue of so many rules.
pub fn judge(catalogue: usize, initial: &[u16], target: &[u16], commands: &[Command]) -> Verdict {
    let mut judge = Judge::new(catalogue, initial, target);
    let mut list = RunningList::new(initial, catalogue);
    judge.look_at(0, initial);
    let replayed = replay(&mut list, commands, |step, rules| judge.look_at(step, rules));
    if let Err(Broken { number, step }) = replayed {
        return Verdict::Broken { number, step };
    }
    if list.rules() != target {
        return Verdict::Broken { number: 24, step: commands.len() };
    }
    judge.verdict()
}

/// The same over field values, tested first; a missing script is refused with 12.
pub fn judge_values(values: &Values) -> Result<Verdict, Refusal> {
    let contents = check(values)?;
    let script = contents.script.ok_or(Refusal { number: 12, position: 0 })?;
    let (initial, target) = (numbers(contents.initial), numbers(contents.target));
    Ok(judge(contents.rules.len(), &initial, &target, &commands_of(script)))
}

#[cfg(test)]
mod tests {
    use super::*;
    use crate::plan::{append_and_delete, insert_delete_and_move};
    use Command::*;

    #[test]
    fn plans_of_the_first_example() {
        let (initial, target) = ([0, 1, 2, 3], [1, 0, 4, 3]);
        let first = append_and_delete(&initial, &target).commands;
        assert_eq!(judge(5, &initial, &target, &first), Verdict::NotFull);
        let second = insert_delete_and_move(&initial, &target, None).commands;
        assert_eq!(judge(5, &initial, &target, &second), Verdict::Safe);
    }

    #[test]
    fn nothing_to_do_is_safe() {
        assert_eq!(judge(5, &[], &[], &[]), Verdict::Safe);
        assert_eq!(judge(5, &[3, 1], &[3, 1], &[]), Verdict::Safe);
    }

    #[test]
    fn an_empty_list_between_is_not_full() {
        let script = [DelPlace { i: 1 }, Ins { i: 1, r: 1 }];
        assert_eq!(judge(2, &[0], &[1], &script), Verdict::NotFull);
    }

    #[test]
    fn a_list_out_of_order_is_named() {
        let script: Vec<Command> = [1, 0, 2, 3].iter().flat_map(|&r| [DelRule { r }, App { r }]).collect();
        let verdict = judge(4, &[0, 1, 2, 3], &[1, 0, 2, 3], &script);
        assert_eq!(verdict, Verdict::NotOrdered { step: 1, place: 2 });
    }

    #[test]
    fn broken_replays() {
        let broken = |number, step| Verdict::Broken { number, step };
        assert_eq!(judge(3, &[0, 1], &[0, 1], &[Mov { i: 2, j: 3 }]), broken(22, 1));
        assert_eq!(judge(3, &[0, 1], &[0, 1, 2], &[Ins { i: 3, r: 2 }]), Verdict::Safe);
        assert_eq!(judge(3, &[0, 1], &[1, 0], &[]), broken(24, 0));
        assert_eq!(judge(3, &[0, 1], &[1, 0], &[DelRule { r: 0 }, DelRule { r: 0 }]), broken(21, 2));
    }
}
