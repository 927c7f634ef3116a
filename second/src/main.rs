//! The command line: `second planlist`, `judgelist`, `showlist`, `scripttext`, `textscript`,
//! `fromiptables`, `vectors`, `brute`, `inputs`, `compare`, `cases` and `bench`; see README.md.

use second::console::{self, Maker, What};
use second::{brute, cases, compare, inputs, iptables, show, text, vectors};
use std::error::Error;
use std::io::{self, Read, Write};
use std::path::Path;
use std::process::ExitCode;

type Outcome = Result<bool, Box<dyn Error>>;

const USAGE: &str = "\
usage: second planlist < FILE
       second judgelist < FILE
       second showlist < FILE
       second scripttext MAKER WHAT < FILE
       second textscript MAKER TYPE < TEXT
       second fromiptables < LISTING
       second vectors FOLDER
       second brute [--rules N]
       second inputs --seed N --count K --dir FOLDER
       second compare --seed N --count K [--library | --planlist COMMAND --judgelist COMMAND --showlist COMMAND
                      --scripttext COMMAND --textscript COMMAND --fromiptables COMMAND]
       second cases FOLDER [LISTED]
       second bench [--only TEXT]
";

/// Words that a command doesn't take.
#[derive(Debug)]
struct Misused(String);

impl std::fmt::Display for Misused {
    fn fmt(&self, to: &mut std::fmt::Formatter) -> std::fmt::Result {
        write!(to, "{}\n{}", self.0, USAGE.trim_end())
    }
}

impl Error for Misused {}

/// What a command takes: words without a name, and how many of them it can do without;
/// options that have a value, options that have none.
struct Takes(&'static [&'static str], usize, &'static [&'static str], &'static [&'static str]);

/// The programs that a comparison can drive, each an option with the command that starts it.
const PROGRAMS: [&str; 6] =
    ["--planlist", "--judgelist", "--showlist", "--scripttext", "--textscript", "--fromiptables"];

const COMPARED: [&str; 8] =
    ["--seed", "--count", PROGRAMS[0], PROGRAMS[1], PROGRAMS[2], PROGRAMS[3], PROGRAMS[4], PROGRAMS[5]];

fn taken(name: &str) -> Option<Takes> {
    Some(match name {
        "planlist" | "judgelist" | "showlist" | "fromiptables" => Takes(&[], 0, &[], &[]),
        "scripttext" => Takes(&["a maker", "what is written"], 0, &[], &[]),
        "textscript" => Takes(&["a maker", "a type"], 0, &[], &[]),
        "vectors" => Takes(&["a folder"], 0, &[], &[]),
        "cases" => Takes(&["a folder", "a folder of listed cases"], 1, &[], &[]),
        "brute" => Takes(&[], 0, &["--rules"], &[]),
        "inputs" => Takes(&[], 0, &["--seed", "--count", "--dir"], &[]),
        "compare" => Takes(&[], 0, &COMPARED, &["--library"]),
        "bench" => Takes(&[], 0, &["--only"], &[]),
        _ => return None,
    })
}

/// Whether a command takes these words: no other, and none too few.
fn check_words(name: &str, arguments: &[String]) -> Result<(), Misused> {
    let Takes(words, spare, valued, plain) =
        taken(name).ok_or_else(|| Misused(format!("there is no command {name}")))?;
    let (mut found, mut rest) = (0, arguments.iter());
    while let Some(argument) = rest.next() {
        if valued.contains(&argument.as_str()) {
            rest.next().ok_or_else(|| Misused(format!("{argument} takes a value")))?;
        } else if !plain.contains(&argument.as_str()) {
            found += 1;
            if found > words.len() || argument.starts_with("--") {
                return Err(Misused(format!("{name} doesn't take {argument}")));
            }
        }
    }
    match words.get(found) {
        Some(missing) if found + spare < words.len() => Err(Misused(format!("{name} takes {missing}"))),
        _ => Ok(()),
    }
}

/// A reader that goes away, as `head` does, ends the program without a word.
/// Not where programs are compared: those are written to, and may stop reading.
#[cfg(unix)]
fn end_quietly_at_a_closed_pipe() {
    const SIGPIPE: i32 = 13;
    const DEFAULT: usize = 0;
    extern "C" {
        fn signal(number: i32, action: usize) -> usize;
    }
    // SAFETY: no other thread runs yet, and no handler is replaced.
    unsafe { signal(SIGPIPE, DEFAULT) };
}

#[cfg(not(unix))]
fn end_quietly_at_a_closed_pipe() {}

/// The value after `--name`, if it is given.
fn option<'a>(arguments: &'a [String], name: &str) -> Option<&'a str> {
    let at = arguments.iter().position(|argument| argument == name)?;
    arguments.get(at + 1).map(String::as_str)
}

fn number(arguments: &[String], name: &str, otherwise: u64) -> Result<u64, Box<dyn Error>> {
    match option(arguments, name) {
        Some(digits) => digits.parse().map_err(|_| Misused(format!("{name} takes a number")).into()),
        None => Ok(otherwise),
    }
}

/// Prints what is answered to standard input.
fn print_answer(answer_to: impl FnOnce(&[u8]) -> Vec<u8>) -> Outcome {
    let mut input = Vec::new();
    io::stdin().read_to_end(&mut input)?;
    io::stdout().write_all(&answer_to(&input))?;
    Ok(true)
}

fn print_text(text_of: fn(&[u8]) -> String) -> Outcome {
    print_answer(|file| text_of(file).into_bytes())
}

fn maker_named(word: &str) -> Result<Maker, Misused> {
    Maker::named(word).ok_or_else(|| Misused(format!("{word} is no maker: A or B")))
}

fn print_script_text(words: &[String]) -> Outcome {
    let maker = maker_named(&words[0])?;
    let what = What::named(&words[1]).ok_or_else(|| Misused(format!("{} isn't 1, 2 or own", words[1])))?;
    print_answer(|file| text::printed(console::file_text(file, what, maker)))
}

fn print_text_script(words: &[String]) -> Outcome {
    let maker = maker_named(&words[0])?;
    let kind = console::type_named(&words[1]).ok_or_else(|| Misused(format!("{} isn't 1 or 2", words[1])))?;
    print_answer(|lines| text::printed(console::text_script(lines, kind, maker)))
}

fn write_inputs(arguments: &[String]) -> Outcome {
    let folder = Path::new(option(arguments, "--dir").ok_or_else(|| Misused("inputs takes --dir".into()))?);
    let seed = number(arguments, "--seed", 1)?;
    std::fs::create_dir_all(folder)?;
    for index in 0..number(arguments, "--count", 100)? {
        let write = |end: &str, bytes: &[u8]| std::fs::write(folder.join(format!("{seed}-{index:06}{end}")), bytes);
        write(".bin", &inputs::make(seed, index))?;
        for (number, listing) in inputs::listings(seed, index).iter().enumerate() {
            write(&format!("-{number}.rules"), listing)?;
        }
    }
    Ok(true)
}

#[cfg(not(feature = "library"))]
const NO_LIBRARY: &str = "this was built without the feature `library`";

#[cfg(feature = "library")]
fn linked_library() -> Result<compare::Other, Box<dyn Error>> {
    Ok(compare::Other::Library)
}

#[cfg(not(feature = "library"))]
fn linked_library() -> Result<compare::Other, Box<dyn Error>> {
    Err(NO_LIBRARY.into())
}

#[cfg(feature = "library")]
fn run_bench(arguments: &[String]) -> Outcome {
    let only = option(arguments, "--only").unwrap_or_default();
    second::bench::Bench { only }.run();
    Ok(true)
}

#[cfg(not(feature = "library"))]
fn run_bench(_: &[String]) -> Outcome {
    Err(NO_LIBRARY.into())
}

fn other_side(arguments: &[String]) -> Result<compare::Other, Box<dyn Error>> {
    let library = arguments.iter().any(|argument| argument == "--library");
    let programs: Vec<&str> = PROGRAMS.iter().filter_map(|name| option(arguments, name)).collect();
    match <[&str; PROGRAMS.len()]>::try_from(programs) {
        Ok(commands) if !library => Ok(compare::Other::Programs(compare::Programs::new(commands))),
        Err(none) if none.is_empty() && library => linked_library(),
        Err(none) if none.is_empty() => Ok(compare::Other::Nobody),
        _ => Err(Misused(format!("either --library, or all of {}", PROGRAMS.join(", "))).into()),
    }
}

fn run_compare(arguments: &[String]) -> Outcome {
    let (seed, count) = (number(arguments, "--seed", 1)?, number(arguments, "--count", 1000)?);
    Ok(compare::run(seed, count, &other_side(arguments)?)?)
}

fn run(arguments: &[String]) -> Outcome {
    let (name, rest) = arguments.split_first().ok_or_else(|| Misused("a command is missing".into()))?;
    check_words(name, rest)?;
    if option(rest, "--planlist").is_none() {
        end_quietly_at_a_closed_pipe();
    }
    match name.as_str() {
        "planlist" => print_text(text::plan_text),
        "judgelist" => print_text(text::judge_text),
        "showlist" => print_text(show::show_text),
        "scripttext" => print_script_text(rest),
        "textscript" => print_text_script(rest),
        "fromiptables" => print_answer(iptables::listing_text),
        "vectors" => Ok(vectors::run(Path::new(&rest[0]))?),
        "brute" => Ok(brute::run(number(rest, "--rules", 4)? as u16)),
        "inputs" => write_inputs(rest),
        "compare" => run_compare(rest),
        "cases" => Ok(cases::run(Path::new(&rest[0]), rest.get(1).map(Path::new))?),
        "bench" => run_bench(rest),
        _ => Err(Misused(format!("there is no command {name}")).into()),
    }
}

fn main() -> ExitCode {
    let arguments: Vec<String> = std::env::args().skip(1).collect();
    match run(&arguments) {
        Ok(true) => ExitCode::SUCCESS,
        Ok(false) => ExitCode::FAILURE,
        Err(error) => {
            eprintln!("{error}");
            if error.is::<Misused>() {
                return ExitCode::from(2);
            }
            ExitCode::FAILURE
        }
    }
}
