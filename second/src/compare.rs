//! Compares our answers with another implementation's on made inputs, and
//! counts the outcomes by kind.

use crate::answers::{ours, Answer, Answers, Difference, Input, Printed, Program};
use std::collections::BTreeMap;
use std::io::{self, Write};
use std::process::{Command, Stdio};

// ---- The other side ----

/// Programs that read standard input and print their answer.
pub struct Programs([Vec<String>; 6]);

impl Programs {
    /// The commands that start `planlist`, `judgelist`, `showlist`, `scripttext`,
    /// `textscript` and `fromiptables`. They are split at blanks; no shell is used.
    pub fn new(commands: [&str; 6]) -> Programs {
        Programs(commands.map(|command| command.split_whitespace().map(str::to_string).collect()))
    }

    /// The command that starts a program with its arguments.
    fn command(&self, program: Program) -> Vec<String> {
        let Programs([planlist, judgelist, showlist, scripttext, textscript, fromiptables]) = self;
        let with = |command: &[String], maker: &str, last: String| [command, &[maker.to_string(), last]].concat();
        match program {
            Program::Planlist => planlist.clone(),
            Program::Judgelist => judgelist.clone(),
            Program::Showlist => showlist.clone(),
            Program::Scripttext(maker, what) => with(scripttext, maker.name(), what.name().to_string()),
            Program::Textscript(maker, kind) => with(textscript, maker.name(), kind.to_string()),
            Program::Fromiptables => fromiptables.clone(),
        }
    }

    fn answers(&self, input: &Input) -> io::Result<Answers> {
        let print = |(program, input)| Ok((program, output(&self.command(program), input)?));
        Ok(Answers { printed: input.questions().into_iter().map(print).collect::<io::Result<_>>()?, entries: None })
    }
}

/// What a program prints for its input. One that stops reading early is no fault.
fn output(command: &[String], input: &[u8]) -> io::Result<Vec<u8>> {
    let (name, arguments) = command.split_first().ok_or(io::ErrorKind::InvalidInput)?;
    let mut child = Command::new(name).args(arguments).stdin(Stdio::piped()).stdout(Stdio::piped()).spawn()?;
    let mut stdin = child.stdin.take().expect("a piped input");
    let printed = std::thread::scope(|scope| {
        scope.spawn(move || stdin.write_all(input));
        child.wait_with_output()
    })?;
    Ok(printed.stdout)
}

/// The other implementation: none, the programs, or the linked library.
pub enum Other {
    Nobody,
    Programs(Programs),
    #[cfg(feature = "library")]
    Library,
}

impl Other {
    /// Its answers to an input, if there is one.
    fn answers(&self, input: &Input) -> io::Result<Option<Answers>> {
        match self {
            Other::Nobody => Ok(None),
            Other::Programs(programs) => programs.answers(input).map(Some),
            #[cfg(feature = "library")]
            Other::Library => Ok(Some(crate::answers::linked(input))),
        }
    }
}

// ---- Counts by outcome ----

/// A program, and the kind of what it prints: "refused N", "verdict N", or that the work is done.
fn printed_kind((program, bytes): &Printed) -> (&'static str, String) {
    let text = String::from_utf8_lossy(bytes);
    let mut words = text.split_whitespace();
    let number = match (words.next(), words.next()) {
        (Some(word @ ("refused" | "verdict")), Some(number)) => Some(format!("{word} {number:>2}")),
        _ => None,
    };
    let (name, done) = match program {
        Program::Planlist => ("planlist", "planned"),
        Program::Judgelist => ("judgelist", "judged"),
        Program::Showlist => ("showlist", "shown"),
        Program::Scripttext(..) => ("scripttext", "written"),
        Program::Textscript(..) => ("textscript", "read"),
        Program::Fromiptables => ("fromiptables", "brought in"),
    };
    (name, number.unwrap_or_else(|| done.to_string()))
}

/// The kind of an entry's answer: a refusal, a verdict or a broken replay by
/// its number, a decision by its action and place, or that the work is done.
fn answer_kind(answer: &Answer) -> String {
    let judge = answer.entry.starts_with("judge");
    let one_flow = matches!(answer.entry, "decide file" | "decide values");
    match (answer.number, answer.words) {
        (0, [0, 0, ..]) if one_flow => "deny by default".to_string(),
        (0, [1, 0, ..]) if one_flow => "permit by default".to_string(),
        (0, [1, ..]) if one_flow => "permit by a rule".to_string(),
        (0, _) if one_flow => "deny by a rule".to_string(),
        (0, _) => "done".to_string(),
        (number @ (1..=13 | 50..=58), _) => format!("refused {number:>2}"),
        (number, _) if judge => format!("verdict {number:>2}"),
        (number, _) => format!("breaks off {number:>2}"),
    }
}

#[derive(Default)]
struct Counts(BTreeMap<String, u64>);

impl Counts {
    fn count(&mut self, who: &str, kind: String) {
        *self.0.entry(format!("{who} {kind}")).or_default() += 1;
    }

    fn add(&mut self, answers: &Answers) {
        for printed in &answers.printed {
            let (program, kind) = printed_kind(printed);
            self.count(program, kind);
        }
        for answer in answers.entries.iter().flatten() {
            self.count(answer.entry, answer_kind(answer));
        }
    }

    fn print(&self) {
        for (name, count) in &self.0 {
            println!("{count:>8}  {name}");
        }
    }
}

// ---- The driver ----

fn hex(bytes: &[u8]) -> String {
    bytes.iter().map(|byte| format!("{byte:02x}")).collect()
}

fn print_difference(index: u64, input: &Input, difference: &Difference) {
    let made = &input.made;
    println!("input {index} differs\nfile {}", hex(&input.file));
    println!("rules {}\ninitial {}\ntarget {}", hex(&made.rules), hex(&made.initial), hex(&made.target));
    let [default, keep, script] = [&made.default, &made.keep, &made.script].map(|part| part.as_deref().map(hex));
    println!("default {default:?}\nkeep {keep:?}\nscript {script:?}");
    println!("room {} for a script, {} for a file, {:?}", made.plan_room, made.file_room, input.rooms);
    println!("flows {:?}\nas bytes {}", input.flows, hex(&input.flow_bytes));
    for made in &input.texts {
        println!("text for {:?} type {}: {}", made.maker, made.kind, made.text.escape_ascii());
    }
    for listing in &input.listings {
        println!("listing: {}", listing.escape_ascii());
    }
    println!("second {}\nother {}", difference.0, difference.1);
}

/// Compares so many inputs; false at the first difference.
pub fn run(seed: u64, count: u64, other: &Other) -> io::Result<bool> {
    let mut counts = Counts::default();
    let (mut inputs, mut entries) = (0, 0);
    for index in 0..count {
        let input = Input::new(seed, index);
        let answers = ours(&input);
        if let Some(theirs) = other.answers(&input)? {
            if let Some(difference) = answers.difference(&theirs) {
                print_difference(index, &input, &difference);
                return Ok(false);
            }
            inputs += 1;
            entries += theirs.count();
        }
        counts.add(&answers);
    }
    counts.print();
    match inputs {
        0 => println!("seed {seed}: {count} inputs, our side only, nothing compared"),
        _ => println!("seed {seed}: {inputs} inputs, {entries} answers compared, no difference"),
    }
    Ok(true)
}
