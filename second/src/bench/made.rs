//! Inputs for timing: policies of a given size over a catalogue of twice as many rules.

use crate::commands::{script_value, Command};
use crate::file::{file_bytes, Contents, Values};
use crate::format::{list_value, numbers, RULE_BYTES};
use crate::inputs;
use crate::plan::append_and_delete;
use crate::rule::{plain_rule, Flow};
use std::net::Ipv4Addr;

const SEED: u64 = 1;
const EDITS: usize = 10;

/// How the target differs from the initial policy.
#[derive(Clone, Copy)]
pub enum Policies {
    Equal,
    Edited,
    Shuffled,
    Reversed,
    Disjoint,
}

impl Policies {
    pub const ALL: [Policies; 5] =
        [Policies::Equal, Policies::Edited, Policies::Shuffled, Policies::Reversed, Policies::Disjoint];

    pub fn name(self) -> &'static str {
        match self {
            Policies::Equal => "equal",
            Policies::Edited => "ten edits",
            Policies::Shuffled => "shuffled",
            Policies::Reversed => "reversed",
            Policies::Disjoint => "disjoint",
        }
    }

    fn target(self, initial: &[u16]) -> Vec<u16> {
        let size = initial.len();
        let mut target = initial.to_vec();
        match self {
            Policies::Equal => {}
            Policies::Edited => edit(&mut target),
            Policies::Shuffled => inputs::shuffle(SEED, &mut target),
            Policies::Reversed => target.reverse(),
            Policies::Disjoint => target = (size as u16..2 * size as u16).collect(),
        }
        target
    }
}

/// Ten edits over the whole list: a rule taken out, another put in, a third moved.
fn edit(target: &mut Vec<u16>) {
    let size = target.len();
    for number in 0..EDITS {
        let at = number * size / EDITS;
        match number % 3 {
            0 => drop(target.remove(at)),
            1 => target.insert(at, (size + number) as u16),
            _ => target[at / 2..=at].rotate_left(1),
        }
    }
}

pub struct Made {
    pub rules: Vec<u8>,
    pub initial: Vec<u8>,
    pub target: Vec<u8>,
    pub script: Option<Vec<u8>>,
}

impl Made {
    /// Policies of so many rules over a catalogue of twice as many.
    pub fn new(size: usize, policies: Policies) -> Made {
        let initial: Vec<u16> = (0..size as u16).collect();
        let target = policies.target(&initial);
        let rules = inputs::catalogue(SEED, 2 * size).concat();
        Made { rules, initial: list_value(&initial), target: list_value(&target), script: None }
    }

    pub fn values(&self) -> Values<'_> {
        let Made { rules, initial, target, script } = self;
        Values { rules, initial, target, default: None, keep: None, script: script.as_deref() }
    }

    /// A file over so many rules, with all fields and each as long as can be:
    /// equal policies of half the rules, a keep list of all of them, a script.
    pub fn full_file(rules: usize) -> Vec<u8> {
        let made = Made::new(rules / 2, Policies::Equal);
        let script = Made::wandering(rules / 2).script;
        file_bytes(&Contents {
            rules: made.rules.chunks_exact(RULE_BYTES).collect(),
            initial: &made.initial,
            target: &made.target,
            default: Some(&[1]),
            keep: Some(&made.initial),
            script: script.as_deref(),
        })
    }

    /// A script of four commands a rule between policies without common rules:
    /// inserts the target behind the initial policy, moves the last initial
    /// rule down and back again and again, and deletes the initial policy.
    pub fn wandering(rules: usize) -> Made {
        let mut made = Made::new(rules, Policies::Disjoint);
        let size = rules as u16;
        let inserts = (0..size).map(|number| Command::Ins { i: size + 1 + number, r: size + number });
        let moves = (0..size).flat_map(|number| {
            let down = 2 * size - number;
            [Command::Mov { i: size, j: down }, Command::Mov { i: down, j: size }]
        });
        let deletes = (0..size).map(|number| Command::DelPlace { i: size - number });
        let commands: Vec<Command> = inserts.chain(moves).chain(deletes).collect();
        made.script = Some(script_value(2, &commands));
        made
    }

    /// The type 1 plan from a policy to one without common rules.
    pub fn disjoint_plan(rules: usize) -> Made {
        let mut made = Made::new(rules, Policies::Disjoint);
        let (initial, target) = (numbers(&made.initial), numbers(&made.target));
        made.script = Some(script_value(1, &append_and_delete(&initial, &target).commands));
        made
    }
}

/// A catalogue of so many rules that differ in their source address alone.
pub fn plain_catalogue(rules: usize) -> Vec<u8> {
    (0..rules as u16).flat_map(plain_rule).collect()
}

/// A listing of so many different rules, each with all options.
pub fn listing(rules: u32) -> Vec<u8> {
    let line = |number: u32| {
        let source = Ipv4Addr::from(0x0a00_0000 + (number << 8));
        let action = if number.is_multiple_of(2) { "ACCEPT" } else { "DROP" };
        format!(
            "-A FORWARD -s {source}/24 -d 192.168.3.0/24 -p tcp -m tcp --sport 1024:65535 --dport 443 -j {action}\n"
        )
    };
    let lines: String = (0..rules).map(line).collect();
    format!("*filter\n:INPUT ACCEPT [0:0]\n:FORWARD ACCEPT [0:0]\n:OUTPUT ACCEPT [0:0]\n{lines}COMMIT\n").into_bytes()
}

/// Flows of which about half match one of so many plain rules, each as often.
pub fn flows(rules: usize, count: usize) -> Vec<Flow> {
    let source = |flow: Flow| Flow { source: flow.source % (2 * rules as u32), ..flow };
    inputs::any_flows(SEED, count).into_iter().map(source).collect()
}
