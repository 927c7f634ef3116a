//! What the cases of reader and writer start from.

use super::given::Given;
use crate::commands::Command::{DelPlace, Ins, Mov};
use crate::format::list_value;
use crate::rule::{encode, full_ranges};

/// Where the ranges of a rule stand, and the bytes of each of their two ends.
pub const ENDS: [(usize, usize); 5] = [(1, 1), (3, 4), (11, 2), (15, 4), (23, 2)];

/// A rule that differs for each number: any source address from there on.
pub fn rule_from(number: u16, permit: bool) -> Vec<u8> {
    let mut ranges = full_ranges();
    ranges[1].low = u32::from(number);
    encode(permit, &ranges)
}

/// So many rules, which permit and deny by turns.
pub fn rules(count: u16) -> Vec<u8> {
    (0..count).flat_map(|number| rule_from(number, number % 2 == 1)).collect()
}

/// Five rules, both policies, default permit, a keep list and a script: no test turns them away.
pub fn base() -> Given {
    let (initial, target) = (list_value(&[0, 1, 2, 3]), list_value(&[1, 0, 4, 3]));
    let given = Given { rules: rules(5), initial, target, ..Given::default() };
    given.permitting().keep(&[1, 3]).script(2, &[Ins { i: 3, r: 4 }, DelPlace { i: 4 }, Mov { i: 1, j: 2 }])
}
