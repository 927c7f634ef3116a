//! Values with one fault, and with each two of them: which is met first.

use super::case::{both_of_all, Case, Over, NO_PORTS};
use super::given::{given, Given};
use crate::commands::Command::Mov;
use crate::format::{RULE_BYTES, TAG_DEFAULT};

type Fault = fn(&mut Given);

pub fn sound() -> Given {
    given(4, &[0, 1, 2], &[2, 0, 1]).permitting().keep(&[0, 1]).script(2, &[Mov { i: 3, j: 1 }])
}

fn default(given: &mut Given) -> &mut Vec<u8> {
    given.default.get_or_insert_default()
}

fn keep(given: &mut Given) -> &mut Vec<u8> {
    given.keep.get_or_insert_default()
}

fn script(given: &mut Given) -> &mut Vec<u8> {
    given.script.get_or_insert_default()
}

/// In the document's order; 7 stands among the limits.
const FAULTS: [Fault; 16] = [
    |given| given.rules.push(0),
    |given| given.rules[2 * RULE_BYTES] = 2,
    |given| given.rules.extend_from_within(..RULE_BYTES),
    |given| given.initial.push(0),
    |given| given.initial.extend([0, 200]),
    |given| given.initial.extend([0, 1]),
    |given| given.target.truncate(5),
    |given| given.target[0] = 255,
    |given| given.target.extend([0, 0]),
    |given| default(given).push(1),
    |given| default(given)[0] = 0,
    |given| keep(given).push(3),
    |given| keep(given).extend([0, 2]),
    |given| keep(given).rotate_left(2),
    |given| script(given).push(5),
    |given| script(given)[0] = 3,
];

/// Other ways to be wrong.
const OTHERS: [Fault; 16] = [
    |given| given.rules.truncate(RULE_BYTES - 1),
    |given| given.rules[0] = 255,
    |given| given.rules[1..3].copy_from_slice(&[18, 17]),
    |given| given.rules[RULE_BYTES + 3..RULE_BYTES + 11].copy_from_slice(&[1, 2, 3, 4, 1, 2, 3, 3]),
    |given| given.rules[11..15].copy_from_slice(&[1, 0, 0, 255]),
    |given| given.rules[15..23].copy_from_slice(&[128, 0, 0, 0, 127, 255, 255, 255]),
    |given| given.rules[3 * RULE_BYTES + 23..].copy_from_slice(&[0, 1, 0, 0]),
    |given| given.initial.extend([0, 4]),
    |given| given.target.extend([0, 4]),
    |given| default(given).clear(),
    |given| default(given)[0] = 2,
    |given| keep(given).extend([0, 1]),
    |given| script(given).clear(),
    |given| script(given)[0] = 1,
    |given| script(given)[1] = 6,
    |given| script(given).extend([4, 0, 1, 0, 1]),
];

fn with(faults: &[Fault]) -> Given {
    let mut given = sound();
    for fault in faults {
        fault(&mut given);
    }
    given
}

/// Values with one fault each, one for each test.
pub fn one_for_each_test() -> Vec<Given> {
    FAULTS.iter().map(|&fault| with(&[fault])).collect()
}

/// Values with one fault each.
pub fn single() -> Vec<Given> {
    FAULTS.iter().chain(&OTHERS).map(|&fault| with(&[fault])).collect()
}

/// Files with the default behind the keep list, before the target policy, and twice.
fn misplaced() -> Vec<Case> {
    let fields = sound().fields();
    let at = fields.iter().position(|field| field[0] == TAG_DEFAULT).expect("a default");
    let [mut late, mut early, mut twice] = [(); 3].map(|()| fields.clone());
    late.swap(at, at + 1);
    early.swap(at - 1, at);
    twice.insert(at, fields[at].clone());
    [late, early, twice].map(|fields| Case::new(Over::File(fields.concat()), 0, NO_PORTS)).into()
}

pub fn all() -> Vec<Case> {
    let mut cases = both_of_all([single(), vec![sound()]].concat());
    cases.extend(misplaced());
    for (index, &later) in FAULTS.iter().enumerate() {
        for &earlier in &FAULTS[..index] {
            let over = Over::Lists(with(&[later, earlier]));
            cases.push(Case::new(over, 0, NO_PORTS));
        }
    }
    cases
}
