//! The groups of cases for the program `entry_cases`: document 01's examples,
//! rooms, flows, limits; and those of the modules above.

use super::case::{both, both_of_all, Case, Over, NO_PORTS};
use super::given::{given, Given};
use super::row::{Group, Trial};
use super::{expected, faults, made, scripts};
use crate::commands::Command::*;
use crate::format::{list_value, MOST_COMMANDS, MOST_IN_POLICY, MOST_RULES, RULE_BYTES};
use crate::inputs::flow_near;
use crate::rule::{encode, flow_of, full_ranges, Range, FLOW_BYTES};

/// Room for the longest plan.
const GREAT_ROOM: usize = 6000;

/// Room for the decisions of three flows, and a byte more.
const FLOW_ROOM: usize = 10;

fn first_example() -> Given {
    given(5, &[0, 1, 2, 3], &[1, 0, 4, 3])
}

fn third_example() -> Given {
    given(3, &[0, 1, 2], &[2, 0, 1])
}

fn examples() -> Vec<Case> {
    let swaps = [1, 0, 2, 3].iter().flat_map(|&r| [DelRule { r }, App { r }]).collect::<Vec<_>>();
    let mut port_zero = full_ranges();
    port_zero[4].high = 0;
    let permit_port_zero = Given { rules: encode(true, &port_zero), initial: vec![0, 0], ..Given::default() };
    let mut cases = both_of_all(vec![
        first_example(),
        first_example().planned(1),
        first_example().planned(2),
        third_example(),
        third_example().keep(&[0, 1]),
        third_example().keep(&[1, 0]),
        given(2, &[0, 1], &[1, 0]).keep(&[]),
        given(3, &[2, 0, 1], &[2, 0, 1]).planned(1),
        Given::default().planned(2),
        given(2, &[0], &[1]).script(2, &[DelPlace { i: 1 }, Ins { i: 1, r: 1 }]),
        given(4, &[0, 1, 2, 3], &[1, 0, 2, 3]).script(1, &swaps),
        given(3, &[0, 1], &[0, 1]).script(2, &[Mov { i: 2, j: 3 }]),
        given(3, &[0, 1], &[0, 1, 2]).script(2, &[Ins { i: 3, r: 2 }]),
        permit_port_zero.clone(),
        permit_port_zero.permitting(),
        first_example().permitting().planned(1),
        third_example().permitting().keep(&[0, 1]).planned(2),
        Given::default().permitting(),
    ]);
    cases.push(Case::new(Over::File(Vec::new()), 0, NO_PORTS));
    cases
}

/// Every room from none to one byte more than the longest output.
fn rooms() -> Vec<Case> {
    let all = [(third_example().keep(&[0, 1]).planned(2), 25), (Given::default().planned(1), 5)];
    let sized = all.iter().flat_map(|(given, most)| (0..=*most).map(|room| (given.clone(), room)));
    sized.flat_map(|(given, room)| both(given, room, NO_PORTS)).collect()
}

/// Flows at, before and behind both ends of each range, by a rule, by one that is
/// wider by one at each end, by one that takes all, and by none of them, under both defaults.
fn flows() -> Vec<Case> {
    let narrow = [(6, 17), (0x0a00_0000, 0x0a00_00ff), (1024, 65533), (0xc0a8_0100, 0xc0a8_01fe), (80, 443)]
        .map(|(low, high)| Range { low, high });
    let wide = narrow.map(|Range { low, high }| Range { low: low - 1, high: high + 1 });
    let rules = [encode(true, &narrow), encode(false, &wide), encode(true, &full_ranges())].concat();
    let (initial, target) = (list_value(&[0, 1, 2]), list_value(&[1, 0]));
    let given = Given { rules, initial, target, ..Given::default() };
    let mut cases = Vec::new();
    for which in 0..5 {
        let Range { low, high } = narrow[which];
        for number in [low - 2, low - 1, low, high, high + 1, high + 2] {
            let mut numbers = narrow.map(|range| if number < high { range.high } else { range.low });
            numbers[which] = number;
            cases.extend(both(given.clone(), FLOW_ROOM, flow_of(numbers)));
            if !(low - 1..=high + 1).contains(&number) {
                cases.extend(both(given.clone().permitting(), FLOW_ROOM, flow_of(numbers)));
            }
        }
    }
    cases
}

/// The same with other flows for the entries that take many at once.
fn with_flows(given: &Given, room: usize, flows: &[u8]) -> [Case; 2] {
    both(given.clone(), room, NO_PORTS).map(|case| Case { flows: flows.to_vec(), ..case })
}

/// Flows of every length up to three of them, whole ones with every room up to a byte more than enough; flows
/// that aren't whole beside values with a fault; and many flows, by 512 rules.
fn many_flows() -> Vec<Case> {
    let bytes: Vec<u8> = (0..3 * FLOW_BYTES).map(|index| index as u8).collect();
    let mut cases = Vec::new();
    for length in 0..=bytes.len() {
        let rooms = if length % FLOW_BYTES == 0 { 0..=FLOW_ROOM } else { FLOW_ROOM..=FLOW_ROOM };
        cases.extend(rooms.flat_map(|room| with_flows(&faults::sound(), room, &bytes[..length])));
    }
    for given in faults::single() {
        cases.extend(with_flows(&given, 0, &bytes[1..]));
    }
    let numbers: Vec<u16> = (0..MOST_IN_POLICY as u16).collect();
    let reversed: Vec<u16> = numbers.iter().rev().copied().collect();
    let full = given(MOST_IN_POLICY as u16, &numbers, &reversed);
    let rules: Vec<&[u8]> = full.rules.chunks_exact(RULE_BYTES).collect();
    let flows: Vec<u8> = (0..600).flat_map(|index| flow_near(&rules, 1, index).bytes()).collect();
    for room in [1799, 1800, 1801] {
        cases.extend(with_flows(&full, room, &flows));
    }
    cases
}

fn full_policies() -> Vec<Given> {
    let numbers: Vec<u16> = (0..MOST_RULES as u16).collect();
    let (lower, upper) = numbers.split_at(MOST_IN_POLICY);
    let reversed: Vec<u16> = lower.iter().rev().copied().collect();
    vec![
        given(MOST_RULES as u16, lower, upper).planned(2),
        given(MOST_IN_POLICY as u16, lower, &reversed).planned(1),
        given(MOST_IN_POLICY as u16, lower, lower).keep(lower),
    ]
}

/// One list with a number more than a policy holds, each in its turn.
fn long_lists() -> Vec<Given> {
    let long = vec![0; 2 * (MOST_IN_POLICY + 1)];
    let short = given(2, &[0, 1], &[1, 0]);
    vec![
        Given { initial: long.clone(), ..short.clone() },
        Given { target: long.clone(), ..short.clone() },
        Given { keep: Some(long), ..short },
    ]
}

fn long_scripts() -> Vec<Given> {
    let same = given(2, &[0, 1], &[0, 1]);
    let moves = |count| same.clone().script(2, &vec![Mov { i: 2, j: 2 }; count]);
    let mut odd = moves(MOST_COMMANDS);
    odd.script.as_mut().expect("a script").push(0);
    vec![
        moves(MOST_COMMANDS),
        moves(MOST_COMMANDS + 1),
        odd,
        same.clone().script(1, &[DelRule { r: 1 }, App { r: 1 }].repeat(MOST_COMMANDS / 2)),
    ]
}

/// Catalogues of 1,024 rules, of one more, and of a part of one more.
fn full_catalogues() -> Vec<Given> {
    let over = given(MOST_RULES as u16 + 1, &[], &[1023]);
    let mut cut = over.clone();
    cut.rules.pop();
    vec![given(MOST_RULES as u16, &[], &[1023]), over, cut]
}

fn limits() -> Vec<Case> {
    let all = [full_catalogues(), full_policies(), long_lists(), long_scripts()].concat();
    all.into_iter().flat_map(|given| both(given, GREAT_ROOM, NO_PORTS)).collect()
}

fn trial(case: Case) -> Trial {
    Trial { bytes: case.bytes(), text: expected::text(&case) }
}

pub fn all() -> Vec<Group> {
    let groups = [
        ("example", examples()),
        ("room", rooms()),
        ("flow", flows()),
        ("flows", many_flows()),
        ("limit", limits()),
        ("script", scripts::all()),
        ("fault", faults::all()),
        ("file", made::files()),
        ("list", made::lists()),
    ];
    groups.map(|(name, cases)| (name, cases.into_iter().map(trial).collect())).into()
}
