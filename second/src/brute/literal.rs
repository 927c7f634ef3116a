//! The document's definitions taken literally, without care for speed.

use crate::commands::Command;

/// Every ordered choice of some of the rules 0 to `rules` - 1.
pub fn policies(rules: u16) -> Vec<Vec<u16>> {
    let mut all: Vec<Vec<u16>> = vec![Vec::new()];
    let mut at = 0;
    while at < all.len() {
        for rule in 0..rules {
            if !all[at].contains(&rule) {
                all.push([&all[at][..], &[rule]].concat());
            }
        }
        at += 1;
    }
    all
}

/// What each rule does to one flow: nothing, or permit it, or deny it; and whether the default permits.
pub struct Pattern {
    rules: Vec<Option<bool>>,
    default: bool,
}

/// All patterns over so many rules, with both defaults.
pub fn patterns(rules: u16) -> Vec<Pattern> {
    let mut all = vec![Vec::new()];
    for _ in 0..rules {
        let longer = |list: &Vec<_>| [None, Some(false), Some(true)].map(|what| [&list[..], &[what]].concat());
        all = all.iter().flat_map(longer).collect();
    }
    let with_both = |rules: Vec<Option<bool>>| [false, true].map(|default| Pattern { rules: rules.clone(), default });
    all.into_iter().flat_map(with_both).collect()
}

/// Whether a list permits the pattern's flow under the pattern's default.
pub fn permits(list: &[u16], pattern: &Pattern) -> bool {
    list.iter().find_map(|&rule| pattern.rules[usize::from(rule)]).unwrap_or(pattern.default)
}

fn place_of(rule: u16, list: &[u16]) -> Option<usize> {
    list.iter().position(|&other| other == rule)
}

/// Whether the rules of `keep` are all in the policy, in the same order.
pub fn in_order(keep: &[u16], policy: &[u16]) -> bool {
    let places: Option<Vec<usize>> = keep.iter().map(|&rule| place_of(rule, policy)).collect();
    places.is_some_and(|places| places.windows(2).all(|pair| pair[0] < pair[1]))
}

/// The planner's own choice: through the target, each common rule that stands
/// in the initial policy after the last one kept.
pub fn own_choice(initial: &[u16], target: &[u16]) -> Vec<u16> {
    let mut kept: Vec<u16> = Vec::new();
    for &rule in target {
        let longer = [&kept[..], &[rule]].concat();
        if in_order(&longer, initial) {
            kept = longer;
        }
    }
    kept
}

/// The list after a command, or the number 20 to 23.
pub fn after(list: &[u16], command: Command, rules: u16) -> Result<Vec<u16>, u8> {
    let length = list.len();
    let outside = |place: u16, most: usize| place < 1 || usize::from(place) > most;
    match command {
        Command::App { r } | Command::DelRule { r } | Command::Ins { r, .. } if r >= rules => Err(23),
        Command::Ins { i, .. } if outside(i, length + 1) => Err(22),
        Command::DelPlace { i } if outside(i, length) => Err(22),
        Command::Mov { i, j } if outside(i, length) || outside(j, length) => Err(22),
        Command::App { r } | Command::Ins { r, .. } if list.contains(&r) => Err(20),
        Command::DelRule { r } if !list.contains(&r) => Err(21),
        Command::App { r } => Ok(with(list, length, r)),
        Command::Ins { i, r } => Ok(with(list, usize::from(i) - 1, r)),
        Command::DelRule { r } => Ok(without(list, r)),
        Command::DelPlace { i } => Ok(without(list, list[usize::from(i) - 1])),
        Command::Mov { i, j } => {
            let rule = list[usize::from(i) - 1];
            Ok(with(&without(list, rule), usize::from(j) - 1, rule))
        }
    }
}

fn without(list: &[u16], rule: u16) -> Vec<u16> {
    list.iter().copied().filter(|&other| other != rule).collect()
}

fn with(list: &[u16], before: usize, rule: u16) -> Vec<u16> {
    [&list[..before], &[rule], &list[before..]].concat()
}

/// All lists of a script from the initial one on; at its end the number, if it breaks.
pub fn lists_of(initial: &[u16], commands: &[Command], rules: u16) -> (Vec<Vec<u16>>, Option<u8>) {
    let mut lists = vec![initial.to_vec()];
    for &command in commands {
        match after(&lists[lists.len() - 1], command, rules) {
            Ok(list) => lists.push(list),
            Err(number) => return (lists, Some(number)),
        }
    }
    (lists, None)
}

fn supported_by(policy: &[u16], list: &[u16], place: usize) -> bool {
    let before = &list[..place];
    let in_policy = place_of(list[place], policy);
    in_policy.is_some_and(|index| policy[..index].iter().all(|rule| before.contains(rule)))
}

fn contains_all(list: &[u16], policy: &[u16]) -> bool {
    policy.iter().all(|rule| list.contains(rule))
}

/// The verdict's numbers, row by row of the table.
pub fn verdict(initial: &[u16], target: &[u16], commands: &[Command], rules: u16) -> Vec<usize> {
    let (lists, broken) = lists_of(initial, commands, rules);
    if let Some(number) = broken {
        return vec![usize::from(number), lists.len()];
    }
    if lists[lists.len() - 1] != target {
        return vec![24, commands.len()];
    }
    for (step, list) in lists.iter().enumerate() {
        let supported = |&place: &usize| supported_by(initial, list, place) || supported_by(target, list, place);
        if let Some(place) = (0..list.len()).find(|place| !supported(place)) {
            return vec![30, step, place + 1];
        }
    }
    let full = |list: &Vec<u16>| contains_all(list, initial) || contains_all(list, target);
    vec![if lists.iter().all(full) { 32 } else { 31 }]
}

/// Under default deny no list permits a flow that both policies deny; under
/// default permit no list denies one that both permit.
pub fn keeps_the_default(lists: &[Vec<u16>], patterns: &[Pattern]) -> bool {
    let (initial, target) = (&lists[0], &lists[lists.len() - 1]);
    patterns.iter().all(|pattern| {
        let as_default = |list: &Vec<u16>| permits(list, pattern) == pattern.default;
        !(as_default(initial) && as_default(target)) || lists.iter().all(as_default)
    })
}

/// Each list decides each flow as the first or the last list does.
pub fn is_safe(lists: &[Vec<u16>], patterns: &[Pattern]) -> bool {
    let (initial, target) = (&lists[0], &lists[lists.len() - 1]);
    patterns.iter().all(|pattern| {
        let ends = [permits(initial, pattern), permits(target, pattern)];
        lists.iter().all(|list| ends.contains(&permits(list, pattern)))
    })
}

/// Each flow's decision changes at most once from the first list to the last.
pub fn changes_once(lists: &[Vec<u16>], patterns: &[Pattern]) -> bool {
    patterns.iter().all(|pattern| {
        let changes = lists.windows(2).filter(|pair| permits(&pair[0], pattern) != permits(&pair[1], pattern));
        changes.count() <= 1
    })
}
