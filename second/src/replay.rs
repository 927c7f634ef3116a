//! Replay: a running list edited by commands.

use crate::commands::Command;

/// A list of distinct rules, with a note of which rules are there.
#[derive(Clone, Debug)]
pub struct RunningList {
    rules: Vec<u16>,
    /// For each rule of the catalogue.
    there: Vec<bool>,
}

impl RunningList {
    /// Starts with a policy over a catalogue of so many rules.
    pub fn new(policy: &[u16], catalogue: usize) -> RunningList {
        let mut there = vec![false; catalogue];
        for &rule in policy {
            there[usize::from(rule)] = true;
        }
        RunningList { rules: policy.to_vec(), there }
    }

    pub fn rules(&self) -> &[u16] {
        &self.rules
    }

    /// Applies one command, or gives the number 20 to 23 and changes nothing.
    pub fn apply(&mut self, command: Command) -> Result<(), u8> {
        match command {
            Command::App { r } => self.put(self.rules.len() + 1, r),
            Command::DelRule { r } => self.take_out_rule(r),
            Command::Ins { i, r } => self.put(usize::from(i), r),
            Command::DelPlace { i } => self.take_out(usize::from(i)),
            Command::Mov { i, j } => self.shift(usize::from(i), usize::from(j)),
        }
    }

    fn test_rule(&self, rule: u16) -> Result<(), u8> {
        if usize::from(rule) < self.there.len() {
            Ok(())
        } else {
            Err(23)
        }
    }

    fn test_place(place: usize, most: usize) -> Result<(), u8> {
        if (1..=most).contains(&place) {
            Ok(())
        } else {
            Err(22)
        }
    }

    fn put(&mut self, place: usize, rule: u16) -> Result<(), u8> {
        self.test_rule(rule)?;
        Self::test_place(place, self.rules.len() + 1)?;
        if self.there[usize::from(rule)] {
            return Err(20);
        }
        self.rules.insert(place - 1, rule);
        self.there[usize::from(rule)] = true;
        Ok(())
    }

    fn take_out_rule(&mut self, rule: u16) -> Result<(), u8> {
        self.test_rule(rule)?;
        let index = self.rules.iter().position(|&other| other == rule).ok_or(21)?;
        self.take_out(index + 1)
    }

    fn take_out(&mut self, place: usize) -> Result<(), u8> {
        Self::test_place(place, self.rules.len())?;
        let rule = self.rules.remove(place - 1);
        self.there[usize::from(rule)] = false;
        Ok(())
    }

    fn shift(&mut self, from: usize, to: usize) -> Result<(), u8> {
        Self::test_place(from, self.rules.len())?;
        Self::test_place(to, self.rules.len())?;
        if from < to {
            self.rules[from - 1..to].rotate_left(1);
        } else {
            self.rules[to - 1..from].rotate_right(1);
        }
        Ok(())
    }
}

/// How a replay breaks off: the number 20 to 23 and the step.
#[derive(Clone, Copy, Debug, PartialEq, Eq)]
pub struct Broken {
    pub number: u8,
    pub step: usize,
}

/// Replays all commands; `look` sees the list after each step.
pub fn replay(list: &mut RunningList, commands: &[Command], mut look: impl FnMut(usize, &[u16])) -> Result<(), Broken> {
    for (index, &command) in commands.iter().enumerate() {
        let step = index + 1;
        list.apply(command).map_err(|number| Broken { number, step })?;
        look(step, list.rules());
    }
    Ok(())
}

#[cfg(test)]
mod tests {
    use super::*;

    fn after(policy: &[u16], command: Command) -> Result<Vec<u16>, u8> {
        let mut list = RunningList::new(policy, 5);
        list.apply(command).map(|()| list.rules.clone())
    }

    #[test]
    fn places_out_of_range_are_refused() {
        assert_eq!(after(&[0, 1], Command::Mov { i: 2, j: 3 }), Err(22));
        assert_eq!(after(&[0, 1], Command::Mov { i: 0, j: 1 }), Err(22));
        assert_eq!(after(&[0, 1], Command::DelPlace { i: 3 }), Err(22));
        assert_eq!(after(&[0, 1], Command::Ins { i: 4, r: 2 }), Err(22));
        assert_eq!(after(&[0, 1], Command::Ins { i: 3, r: 2 }), Ok(vec![0, 1, 2]));
    }

    #[test]
    fn the_tests_of_a_command_come_in_order() {
        assert_eq!(after(&[0, 1], Command::Ins { i: 0, r: 5 }), Err(23));
        assert_eq!(after(&[0, 1], Command::Ins { i: 0, r: 1 }), Err(22));
        assert_eq!(after(&[0, 1], Command::Ins { i: 1, r: 1 }), Err(20));
        assert_eq!(after(&[0, 1], Command::App { r: 1 }), Err(20));
        assert_eq!(after(&[0, 1], Command::App { r: 5 }), Err(23));
        assert_eq!(after(&[0, 1], Command::DelRule { r: 2 }), Err(21));
        assert_eq!(after(&[0, 1], Command::DelRule { r: 5 }), Err(23));
    }

    #[test]
    fn a_moved_rule_is_the_jth_of_the_new_list() {
        assert_eq!(after(&[0, 1, 2, 3], Command::Mov { i: 1, j: 3 }), Ok(vec![1, 2, 0, 3]));
        assert_eq!(after(&[0, 1, 2, 3], Command::Mov { i: 4, j: 2 }), Ok(vec![0, 3, 1, 2]));
        assert_eq!(after(&[0, 1, 2, 3], Command::Mov { i: 2, j: 2 }), Ok(vec![0, 1, 2, 3]));
    }
}
