//! Made scripts: planned, altered, wandering, broken, and meaningless ones.

use super::draft::{Draft, Script};
use super::random::Random;
use crate::commands::Command;
use crate::format::MOST_COMMANDS;
use crate::judge::{judge, Verdict};
use crate::plan::plan;
use crate::replay::RunningList;

/// Any script for the draft, or none.
pub fn any(random: &mut Random, draft: &Draft) -> Option<Script> {
    let (kind, mut commands) = match random.below(20) {
        0 | 1 => return None,
        2 | 3 => planned(random, draft),
        4..=6 => altered(random, draft),
        7 | 8 => wandering(random, draft),
        9 | 10 => careful(random, draft),
        11 => nowhere(random, draft),
        12 | 13 => tail_out_and_in(random, draft),
        14..=18 => broken(random, draft),
        _ => meaningless(random, draft),
    };
    commands.truncate(MOST_COMMANDS);
    Some((kind, commands))
}

fn any_kind(random: &mut Random) -> u8 {
    random.pick(&[1, 2, 2])
}

fn planned(random: &mut Random, draft: &Draft) -> Script {
    let kind = any_kind(random);
    (kind, plan(kind, &draft.initial, &draft.target, draft.keep.as_deref()).commands)
}

/// A planner's script with something left out, doubled, swapped or changed.
fn altered(random: &mut Random, draft: &Draft) -> Script {
    let (kind, mut commands) = planned(random, draft);
    if commands.is_empty() {
        return (kind, commands);
    }
    let at = random.below(commands.len());
    let other = random.below(commands.len());
    match random.below(6) {
        0 => commands.truncate(at),
        1 => drop(commands.remove(at)),
        2 => commands.insert(other, commands[at]),
        3 => commands.swap(at, other),
        4 => commands.swap(at, (at + 1).min(other)),
        _ => commands[at] = nudged(random, commands[at]),
    }
    (kind, commands)
}

fn nudge(random: &mut Random, number: &mut u16) {
    *number = if random.one_in(2) { number.wrapping_add(1) } else { number.saturating_sub(1) };
}

fn nudged(random: &mut Random, mut command: Command) -> Command {
    let first = random.one_in(2);
    match &mut command {
        Command::App { r } | Command::DelRule { r } => nudge(random, r),
        Command::DelPlace { i } => nudge(random, i),
        Command::Ins { i, r } => nudge(random, if first { i } else { r }),
        Command::Mov { i, j } => nudge(random, if first { i } else { j }),
    }
    command
}

/// A rule of the catalogue that isn't in the list.
fn absent_rule(random: &mut Random, list: &[u16], catalogue: usize) -> Option<u16> {
    let absent: Vec<u16> = (0..catalogue as u16).filter(|rule| !list.contains(rule)).collect();
    if absent.is_empty() {
        None
    } else {
        Some(random.pick(&absent))
    }
}

/// A command that succeeds on the list, if there is one.
fn legal(random: &mut Random, kind: u8, list: &[u16], catalogue: usize) -> Option<Command> {
    let length = list.len();
    let fresh = absent_rule(random, list, catalogue);
    if let Some(r) = fresh.filter(|_| length == 0 || random.one_in(3)) {
        let i = random.between(1, length + 1) as u16;
        return Some(if kind == 1 { Command::App { r } } else { Command::Ins { i, r } });
    }
    if length == 0 {
        return None;
    }
    let i = random.between(1, length) as u16;
    let j = random.between(1, length) as u16;
    Some(match (kind, random.below(2)) {
        (1, _) => Command::DelRule { r: random.pick(list) },
        (_, 0) => Command::DelPlace { i },
        _ => Command::Mov { i, j },
    })
}

/// Legal commands from the initial policy on; gives them and the last list.
fn wander(random: &mut Random, kind: u8, draft: &Draft) -> (Vec<Command>, RunningList) {
    let catalogue = draft.rules.len();
    let mut list = RunningList::new(&draft.initial, catalogue);
    let mut commands = Vec::new();
    for _ in 0..=random.below(8) {
        if let Some(command) = legal(random, kind, list.rules(), catalogue) {
            list.apply(command).expect("a legal command");
            commands.push(command);
        }
    }
    (commands, list)
}

/// Wanders, then goes to the target from where it is.
fn wandering(random: &mut Random, draft: &Draft) -> Script {
    let kind = any_kind(random);
    let (mut commands, list) = wander(random, kind, draft);
    commands.extend(plan(kind, list.rules(), &draft.target, None).commands);
    (kind, commands)
}

/// Wanders and stays there.
fn nowhere(random: &mut Random, draft: &Draft) -> Script {
    let kind = any_kind(random);
    (kind, wander(random, kind, draft).0)
}

/// The type 2 command that takes back what `command` does to the list.
fn inverse(list: &[u16], command: Command) -> Command {
    match command {
        Command::Ins { i, .. } => Command::DelPlace { i },
        Command::DelPlace { i } => Command::Ins { i, r: list[usize::from(i) - 1] },
        Command::Mov { i, j } => Command::Mov { i: j, j: i },
        other => other,
    }
}

fn stays_ordered(draft: &Draft, list: &[u16], commands: &[Command]) -> bool {
    // A script that ends elsewhere gets 24 whatever its order, so it is led to the target first.
    let back = plan(2, list, &draft.target, None).commands;
    let whole = [commands, &back[..]].concat();
    let verdict = judge(draft.rules.len(), &draft.initial, &draft.target, &whole);
    !matches!(verdict, Verdict::NotOrdered { step, .. } if step <= commands.len())
}

/// Wanders over ordered lists only, comes back the same way, then goes as planned.
fn careful(random: &mut Random, draft: &Draft) -> Script {
    let mut list = RunningList::new(&draft.initial, draft.rules.len());
    let (mut out, mut back) = (Vec::new(), Vec::new());
    let tries = if draft.initial.len() > 60 { 4 } else { 16 };
    for _ in 0..tries {
        let Some(command) = legal(random, 2, list.rules(), draft.rules.len()) else { break };
        let mut next = list.clone();
        next.apply(command).expect("a legal command");
        out.push(command);
        if stays_ordered(draft, next.rules(), &out) {
            back.push(inverse(list.rules(), command));
            list = next;
        } else {
            out.pop();
        }
    }
    let planned = plan(2, &draft.initial, &draft.target, draft.keep.as_deref()).commands;
    let back = back.into_iter().rev();
    (2, out.into_iter().chain(back).chain(planned).collect())
}

/// Takes rules off the end and puts them back, then goes as planned.
fn tail_out_and_in(random: &mut Random, draft: &Draft) -> Script {
    let kind = any_kind(random);
    let length = draft.initial.len();
    let left = length - random.between(0, length.min(4));
    let tail = &draft.initial[left..];
    let places = (left + 1..=length).map(|place| place as u16);
    let mut commands: Vec<Command> = if kind == 1 {
        let dels = tail.iter().rev().map(|&r| Command::DelRule { r });
        dels.chain(tail.iter().map(|&r| Command::App { r })).collect()
    } else {
        let dels = places.clone().rev().map(|i| Command::DelPlace { i });
        dels.chain(places.zip(tail).map(|(i, &r)| Command::Ins { i, r })).collect()
    };
    commands.extend(plan(kind, &draft.initial, &draft.target, draft.keep.as_deref()).commands);
    (kind, commands)
}

/// A command that breaks the replay on this list; more than one thing may be wrong.
fn breaking(random: &mut Random, kind: u8, list: &[u16], catalogue: usize) -> Command {
    let length = list.len();
    let outside = random.pick(&[catalogue, catalogue + 1, 65535]) as u16;
    let bad_place = random.pick(&[0, length + 1, length + 2, 65535]) as u16;
    let bad_gap = random.pick(&[0, length + 2, 65535]) as u16;
    let good_place = random.between(1, length.max(1)) as u16;
    let there = if list.is_empty() { outside } else { random.pick(list) };
    let absent = absent_rule(random, list, catalogue).unwrap_or(outside);
    match (kind, random.below(7)) {
        (1, 0) => Command::App { r: outside },
        (1, 1) => Command::DelRule { r: outside },
        (1, 2..=4) => Command::App { r: there },
        (1, _) => Command::DelRule { r: absent },
        (_, 0) => Command::Ins { i: good_place, r: outside },
        (_, 1) => Command::Ins { i: bad_gap, r: random.pick(&[outside, there, absent]) },
        (_, 2) => Command::DelPlace { i: bad_place },
        (_, 3) => Command::Mov { i: bad_place, j: good_place },
        (_, 4) => Command::Mov { i: good_place, j: bad_place },
        _ => Command::Ins { i: random.pick(&[good_place, length as u16 + 1]), r: there },
    }
}

/// A good script with a breaking command somewhere in it.
fn broken(random: &mut Random, draft: &Draft) -> Script {
    let kind = random.pick(&[1, 2]);
    let mut commands = plan(kind, &draft.initial, &draft.target, draft.keep.as_deref()).commands;
    let at = random.between(0, commands.len());
    let mut list = RunningList::new(&draft.initial, draft.rules.len());
    for &command in &commands[..at] {
        list.apply(command).expect("a planned command");
    }
    commands.insert(at, breaking(random, kind, list.rules(), draft.rules.len()));
    (kind, commands)
}

/// Commands with numbers near the sizes of the draft.
fn meaningless(random: &mut Random, draft: &Draft) -> Script {
    let kind = any_kind(random);
    let end = draft.rules.len() + 2;
    let commands = (0..random.below(6)).map(|_| {
        let (first, second) = (random.below(end) as u16, random.below(end) as u16);
        match (kind, random.below(3)) {
            (1, 0) => Command::DelRule { r: first },
            (1, _) => Command::App { r: first },
            (_, 0) => Command::Ins { i: first, r: second },
            (_, 1) => Command::DelPlace { i: first },
            _ => Command::Mov { i: first, j: second },
        }
    });
    let commands = commands.collect();
    (kind, commands)
}

/// A type 2 plan filled up to so many commands, mostly with moves without effect.
pub fn padded(random: &mut Random, draft: &Draft, count: usize) -> Script {
    let planned = plan(2, &draft.initial, &draft.target, draft.keep.as_deref()).commands;
    let length = draft.initial.len();
    let fill = count - planned.len();
    let mut commands = Vec::with_capacity(count);
    while commands.len() < fill {
        let i = random.between(1, length.max(1)) as u16;
        let j = random.between(1, length.max(1)) as u16;
        if random.one_in(200) && commands.len() + 2 <= fill {
            commands.extend([Command::Mov { i, j }, Command::Mov { i: j, j: i }]);
        } else {
            commands.push(Command::Mov { i, j: i });
        }
    }
    commands.extend(planned);
    (2, commands)
}
