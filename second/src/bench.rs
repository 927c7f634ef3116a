//! Times the linked library and this implementation on the same inputs, in one
//! run: the two alternate, and the best of several repetitions counts.

mod made;

use crate::commands::commands_of;
use crate::console::{self, Maker};
use crate::file::{self, put};
use crate::format::numbers;
use crate::iptables;
use crate::judge::judge_values;
use crate::library;
use crate::plan::plan_values;
use crate::policy::{decide_flows_values, PolicyValues, DECISION_BYTES};
use crate::rule::Flow;
use made::{Made, Policies};
use std::hint::black_box;
use std::time::{Duration, Instant};

const REPETITIONS: usize = 25;
const LONG_REPETITIONS: usize = 7;

/// A repetition makes so many calls that it takes about this long.
const REPETITION: Duration = Duration::from_millis(4);

const FLOWS: usize = 1_000_000;
const PLAN_BYTES: usize = 5_124;

/// The longest console text and the longest script field.
const CONSOLE_BYTES: usize = 49_152;
const FIELD_BYTES: usize = 10_244;

/// The longest file of a listing.
const FILE_BYTES: usize = 17_418;

/// What the ratio of a line should stay under.
const GOAL: f64 = 1.5;

// ---- Timing ----

fn time<T>(calls: u32, call: &mut impl FnMut() -> T) -> Duration {
    let start = Instant::now();
    for _ in 0..calls {
        black_box(call());
    }
    start.elapsed() / calls
}

/// The best time of one call of each, the two in turn.
fn best<T, U>(repetitions: usize, mut ours: impl FnMut() -> T, mut second: impl FnMut() -> U) -> (Duration, Duration) {
    let longest = time(1, &mut ours).max(time(1, &mut second)).max(Duration::from_nanos(1));
    let calls = (REPETITION.as_nanos() / longest.as_nanos()).clamp(1, 100_000) as u32;
    let mut least = (Duration::MAX, Duration::MAX);
    for _ in 0..repetitions {
        least.0 = least.0.min(time(calls, &mut ours));
        least.1 = least.1.min(time(calls, &mut second));
    }
    least
}

fn print_line(what: &str, (ours, second): (Duration, Duration)) {
    let microseconds = |time: Duration| time.as_secs_f64() * 1e6;
    let ratio = ours.as_secs_f64() / second.as_secs_f64();
    let mark = if ratio > GOAL { "  above the goal" } else { "" };
    println!("{what:<60} {:>11.2} {:>11.2} {ratio:>6.2}{mark}", microseconds(ours), microseconds(second));
}

/// The lines whose text has this part are timed.
pub struct Bench<'a> {
    pub only: &'a str,
}

// ---- The lines ----

/// Both sides must say the same before they are timed.
fn same<T: PartialEq + std::fmt::Debug>(ours: T, second: T) {
    assert_eq!(ours, second, "the two answer differently");
}

impl Bench<'_> {
    fn line<T, U>(&self, what: String, repetitions: usize, ours: impl FnMut() -> T, second: impl FnMut() -> U) {
        if what.contains(self.only) {
            print_line(&what, best(repetitions, ours, second));
        }
    }

    fn reading(&self, rules: usize) {
        let file = Made::full_file(rules);
        let mut words = [0; 14];
        same(library::read(&file, &mut words), 0);
        same(words[0] as usize, file::read(&file).expect("an accepted file").rules.len());
        self.line(
            format!("read a file of {rules} rules"),
            REPETITIONS,
            || library::read(black_box(&file), &mut words),
            || file::read(black_box(&file)),
        );
    }

    /// The tests that the planners and the judge begin with.
    fn testing(&self, rules: usize) {
        let made = Made::new(rules / 2, Policies::Equal);
        let values = made.values();
        same(library::check(&values, &mut []), 0);
        self.line(
            format!("test field values of {rules} rules"),
            REPETITIONS,
            || library::check(black_box(&values), &mut []),
            || file::check(black_box(&values)),
        );
    }

    /// One call tests the values and decides all flows.
    fn deciding(&self, rules: usize, flows: &[Flow]) {
        let (bytes, list) = (made::plain_catalogue(rules), Made::new(rules, Policies::Equal).initial);
        let policy = PolicyValues { rules: &bytes, list: &list, default: None };
        let flows: Vec<u8> = flows.iter().flat_map(Flow::bytes).collect();
        let needed = DECISION_BYTES * FLOWS;
        let (mut place, mut other_place, mut words) = (vec![0; needed], vec![0; needed], [0; 1]);
        same(library::decide_flows(&policy, &flows, &mut place, &mut words), 0);
        same(decide_flows_values(&policy, &flows, &mut other_place), Ok(words[0] as usize));
        assert!(place == other_place, "the two answer differently");
        self.line(
            format!("decide {FLOWS} flows by {rules} rules"),
            LONG_REPETITIONS,
            || library::decide_flows(&policy, black_box(&flows), &mut place, &mut words),
            || decide_flows_values(&policy, black_box(&flows), &mut other_place),
        );
    }

    fn planning(&self, kind: u8, rules: usize, policies: Policies) {
        let made = Made::new(rules, policies);
        let values = made.values();
        let (mut place, mut other_place, mut words) = ([0; PLAN_BYTES], [0; PLAN_BYTES], [0; 3]);
        same(library::plan(kind, &values, &mut place, &mut words), 0);
        let plan = plan_values(kind, &values, &mut other_place).expect("accepted values");
        same((words[1] as usize, &place), (plan.commands, &other_place));
        self.line(
            format!("plan type {kind}, {rules} rules, {}, {} commands", policies.name(), plan.commands),
            REPETITIONS,
            || library::plan(kind, black_box(&values), &mut place, &mut words),
            || plan_values(kind, black_box(&values), &mut other_place),
        );
    }

    fn judging(&self, what: &str, made: &Made) {
        let values = made.values();
        let script = made.script.as_deref().expect("a script to judge");
        let (rules, commands) = (numbers(&made.initial).len(), commands_of(script).len());
        let verdict = || judge_values(black_box(&values)).expect("accepted values").numbers()[0] as u32;
        let mut words = [0; 2];
        same(library::judge(&values, script, &mut words), verdict());
        self.line(
            format!("judge {commands} commands, {what}, {rules} rules"),
            REPETITIONS,
            || library::judge(black_box(&values), script, &mut words),
            verdict,
        );
    }

    fn writing_text(&self, script: &[u8], maker: Maker) {
        let (mut place, mut other_place, mut words) = (vec![0; CONSOLE_BYTES], vec![0; CONSOLE_BYTES], [0; 1]);
        let second = |place: &mut [u8]| put(&console::script_text(black_box(script), maker)?, place);
        same(library::script_text(script, maker, &mut place, &mut words), 0);
        same(second(&mut other_place), Ok(words[0] as usize));
        assert!(place == other_place, "the two answer differently");
        self.line(
            format!("write {} commands as text for maker {}", commands_of(script).len(), maker.name()),
            REPETITIONS,
            || library::script_text(black_box(script), maker, &mut place, &mut words),
            || second(&mut other_place),
        );
    }

    fn reading_text(&self, script: &[u8], maker: Maker) {
        let (kind, text) = (script[0], console::script_text(script, maker).expect("an accepted script"));
        let (mut place, mut other_place, mut words) = ([0; FIELD_BYTES], [0; FIELD_BYTES], [0; 1]);
        let second = |place: &mut [u8]| put(&console::text_script(black_box(&text), kind, maker)?, place);
        same(library::text_script(&text, kind, maker, &mut place, &mut words), 0);
        same(second(&mut other_place), Ok(words[0] as usize));
        assert!(place == other_place, "the two answer differently");
        self.line(
            format!("read text of {} commands of maker {}", commands_of(script).len(), maker.name()),
            REPETITIONS,
            || library::text_script(black_box(&text), kind, maker, &mut place, &mut words),
            || second(&mut other_place),
        );
    }

    fn bringing_in(&self, rules: u32) {
        let listing = made::listing(rules);
        let (mut place, mut other_place, mut words) = ([0; FILE_BYTES], [0; FILE_BYTES], [0; 1]);
        let second = |place: &mut [u8]| put(&iptables::from_iptables(black_box(&listing))?, place);
        same(library::from_iptables(&listing, &mut place, &mut words), 0);
        same(second(&mut other_place), Ok(words[0] as usize));
        assert!(place == other_place, "the two answer differently");
        self.line(
            format!("bring in a listing of {rules} rules"),
            REPETITIONS,
            || library::from_iptables(black_box(&listing), &mut place, &mut words),
            || second(&mut other_place),
        );
    }

    /// Prints all lines.
    pub fn run(&self) {
        println!("{:<60} {:>11} {:>11} {:>6}", "best time of one call", "library/µs", "second/µs", "ratio");
        for rules in [1024, 256, 64] {
            self.reading(rules);
        }
        for rules in [1024, 256, 64] {
            self.testing(rules);
        }
        for rules in [512, 128, 32] {
            self.deciding(rules, &made::flows(rules, FLOWS));
        }
        for kind in [1, 2] {
            for policies in Policies::ALL {
                for rules in [512, 128, 32] {
                    self.planning(kind, rules, policies);
                }
            }
        }
        for rules in [512, 128, 32] {
            self.judging("a script that wanders", &Made::wandering(rules));
        }
        for rules in [512, 128, 32] {
            self.judging("the type 1 plan of disjoint", &Made::disjoint_plan(rules));
        }
        let wandering = Made::wandering(512).script.expect("a script to write");
        for maker in Maker::BOTH {
            self.writing_text(&wandering, maker);
        }
        for maker in Maker::BOTH {
            self.reading_text(&wandering, maker);
        }
        for rules in [512, 128, 32] {
            self.bringing_in(rules);
        }
        println!("read: a file with equal policies of half the rules, a keep list of all of them, and a script of two commands a rule;");
        println!("decide: one call over field values, with their tests; plan and judge: likewise, over a catalogue of twice the rules;");
        println!("text: of the script that wanders over 512 rules, half of it moves; listing: different rules, each with all options.");
    }
}
