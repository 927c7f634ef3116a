//! Listings taken literally: which words of a rule line are read, how a listing decides a flow, and that none which is cut
//! short inside its `*filter` part is brought in.

use super::held::{must, Held};
use crate::file::{read, Contents};
use crate::format::numbers;
use crate::inputs;
use crate::iptables::{from_iptables, LOW_ABOVE, NOT_READ};
use crate::policy::{decide, Policy};
use crate::rule::Flow;
use std::collections::HashSet;
use std::net::Ipv4Addr;

const SEED: u64 = 3;
const INPUTS: u64 = 2000;
const FLOWS: u64 = 8;

/// Listings up to this length are cut at every byte.
const CUT: usize = 400;

// ---- All short rule lines ----

type Words = Vec<&'static str>;

/// Some options, each with words that it can have.
const OPTIONS: [(&str, &[&str]); 5] = [
    ("-s", &["1.2.3.4/8"]),
    ("-p", &["tcp", "udp", "6"]),
    ("-m", &["tcp", "udp"]),
    ("--dport", &["6", "300", FALLING]),
    ("-j", &["ACCEPT"]),
];

const FALLING: &str = "9:8";

/// The words of these options and two that are none.
const WORDS: [&str; 14] =
    ["-s", "1.2.3.4/8", "-p", "tcp", "udp", "6", "-m", "--dport", "300", FALLING, "-j", "ACCEPT", "!", ""];

/// All lists of up to so many of the given ones, one behind another.
fn lists_of(parts: &[Words], most: usize) -> Vec<Words> {
    let mut all = vec![Vec::new()];
    let mut last = all.clone();
    for _ in 0..most {
        last = last.iter().flat_map(|list| parts.iter().map(|part| [&list[..], part].concat())).collect();
        all.extend_from_slice(&last);
    }
    all
}

/// All rule lines that can be made of the options: each at most once, in all orders, with each of its words.
fn made_of_options(so_far: &Words, left: &[(&'static str, &'static [&'static str])], all: &mut Vec<Words>) {
    all.push(so_far.clone());
    for (at, (option, words)) in left.iter().enumerate() {
        let others = [&left[..at], &left[at + 1..]].concat();
        for word in *words {
            made_of_options(&[&so_far[..], &[*option, *word]].concat(), &others, all);
        }
    }
}

/// What stands behind an option, and the options before it.
fn given<'a>(line: &'a [&'static str], option: &str) -> Option<(&'static str, &'a [&'static str])> {
    let at = line.iter().step_by(2).position(|word| *word == option)?;
    Some((line[2 * at + 1], &line[..2 * at]))
}

/// "one `-j ACCEPT` or `DROP`", "after `-p` tcp or udp", "skipped when `-p` agrees".
fn is_read(line: &[&'static str]) -> bool {
    let behind = |option, allowed: &dyn Fn(&str, &str) -> bool| {
        given(line, option)
            .is_none_or(|(word, before)| given(before, "-p").is_some_and(|(name, _)| allowed(word, name)))
    };
    given(line, "-j").is_some()
        && behind("--dport", &|_, name| name == "tcp" || name == "udp")
        && behind("-m", &|word, name| word == name)
}

fn test_words(words: &Words, read: &HashSet<Words>) -> Held {
    let options: String = words.iter().map(|word| format!(" {word}")).collect();
    let listing = format!("*filter\n:FORWARD DROP [0:0]\n-A FORWARD{options}\nCOMMIT\n");
    let number = from_iptables(listing.as_bytes()).err().map(|refusal| (refusal.number, refusal.position));
    let literally = match read.contains(words) {
        false => Some((NOT_READ, 3)),
        true => words.contains(&FALLING).then_some((LOW_ABOVE, 3)),
    };
    must(number == literally, || format!("{listing:?}: {number:?}, literally {literally:?}"))
}

/// Tests all lines of up to five words, and of up to five options with a word each; gives their number.
fn test_short_lines() -> Result<usize, String> {
    let mut read = Vec::new();
    made_of_options(&Vec::new(), &OPTIONS, &mut read);
    let read: HashSet<Words> = read.into_iter().filter(|line| is_read(line)).collect();
    let words: Vec<Words> = WORDS.map(|word| vec![word]).into();
    let pairs = OPTIONS.iter().flat_map(|(option, words)| words.iter().map(|word| vec![*option, *word]));
    let pairs: Vec<Words> = pairs.chain([vec!["!", "-j"], vec!["-s", "tcp"], vec!["--dport", ""]]).collect();
    let lines = [lists_of(&words, 5), lists_of(&pairs, 5)].concat();
    lines.iter().try_for_each(|line| test_words(line, &read))?;
    Ok(lines.len())
}

// ---- What a listing decides ----

/// Whether the first bits of two addresses are the same, as many as the mask says.
fn covers(word: &str, address: u32) -> bool {
    let (given, bits) = word.split_once('/').unwrap_or((word, "32"));
    let given = given.parse::<Ipv4Addr>().expect("an address that was read");
    let bits: usize = bits.parse().expect("a mask that was read");
    format!("{:032b}", u32::from(given))[..bits] == format!("{address:032b}")[..bits]
}

fn is_within(word: &str, port: u16) -> bool {
    let (low, high) = word.split_once(':').unwrap_or((word, word));
    let [low, high] = [low, high].map(|number| number.parse::<u16>().expect("a port that was read"));
    (low..=high).contains(&port)
}

fn is_protocol(word: &str, protocol: u8) -> bool {
    match word {
        "icmp" => protocol == 1,
        "tcp" => protocol == 6,
        "udp" => protocol == 17,
        number => number == protocol.to_string(),
    }
}

/// Whether an option lets a flow match.
fn holds(option: &[&str], flow: &Flow) -> bool {
    match option[0] {
        "-s" => covers(option[1], flow.source),
        "-d" => covers(option[1], flow.destination),
        "-p" => is_protocol(option[1], flow.protocol),
        "--sport" => is_within(option[1], flow.source_port),
        "--dport" => is_within(option[1], flow.destination_port),
        _ => true,
    }
}

/// Of a listing that is brought in, the default and the options of each rule line, repeats included.
fn told(listing: &str) -> (bool, Vec<Vec<&str>>) {
    let (mut permits, mut rules, mut inside) = (false, Vec::new(), false);
    for line in listing.split('\n') {
        inside = line == "*filter" || inside && line != "COMMIT" && !line.starts_with('*');
        match line.split(' ').collect::<Vec<_>>()[..] {
            [":FORWARD", policy, _] if inside => permits = policy == "ACCEPT",
            ["-A", "FORWARD", ref options @ ..] if inside => rules.push(options.to_vec()),
            _ => {}
        }
    }
    (permits, rules)
}

/// The first line that matches decides, or else the default.
fn literally_permits(permits: bool, rules: &[Vec<&str>], flow: &Flow) -> bool {
    let first = rules.iter().find(|options| options.chunks(2).all(|option| holds(option, flow)));
    first.map_or(permits, |options| options.chunks(2).any(|option| option == ["-j", "ACCEPT"]))
}

fn test_flows(listing: &[u8], contents: &Contents, index: u64) -> Held {
    let text = String::from_utf8_lossy(listing);
    let (permits, rules) = told(&text);
    for number in index * FLOWS..(index + 1) * FLOWS {
        let flow = match number % 4 {
            0 => inputs::flow(SEED, number),
            _ => inputs::flow_near(&contents.rules, SEED, number),
        };
        let literally = literally_permits(permits, &rules, &flow);
        let both =
            [false, true].map(|of_target| decide(&contents.rules, Policy::of(contents, of_target), &flow).permit);
        must(both == [literally; 2], || format!("{text:?}: {flow:?} literally permitted: {literally}"))?;
    }
    Ok(())
}

/// The contents are a list of rules as both policies, and nothing else.
fn test_contents(listing: &[u8], contents: &Contents) -> Held {
    let list: Vec<u16> = (0..contents.rules.len() as u16).collect();
    let both = [contents.initial, contents.target].map(numbers);
    let bare = contents.keep.is_none() && contents.script.is_none();
    must(bare && both == [&list[..]; 2], || format!("{}: other contents", listing.escape_ascii()))
}

/// A listing with one `*filter` part that is cut short is turned away, or cut behind the part.
fn test_cuts(listing: &[u8], file: &[u8]) -> Result<usize, String> {
    let parts = listing.split(|&byte| byte == b'\n').filter(|line| line == b"*filter").count();
    if parts != 1 || listing.len() > CUT {
        return Ok(0);
    }
    for end in 0..listing.len() {
        let cut = from_iptables(&listing[..end]);
        must(cut.is_err() || cut.as_deref() == Ok(file), || format!("{} cut at {end}", listing.escape_ascii()))?;
    }
    Ok(listing.len())
}

/// Tests all short rule lines, and made listings.
pub fn test_all() -> Result<String, String> {
    let lines = test_short_lines()?;
    let (mut listings, mut cuts) = (0, 0);
    for index in 0..INPUTS {
        for listing in inputs::listings(SEED, index) {
            let Ok(file) = from_iptables(&listing) else { continue };
            let contents = read(&file).map_err(|refusal| format!("{}: {refusal:?}", listing.escape_ascii()))?;
            test_contents(&listing, &contents)?;
            test_flows(&listing, &contents, listings)?;
            cuts += test_cuts(&listing, &file)?;
            listings += 1;
        }
    }
    let flows = listings * FLOWS;
    Ok(format!("{lines} short rule lines, {listings} listings, {flows} flows, {cuts} cuts, all hold"))
}

#[cfg(test)]
mod tests {
    use super::*;

    #[test]
    fn the_first_bits_count() {
        assert!(covers("10.1.2.3/8", 0x0aff_0000) && !covers("10.1.2.3/9", 0x0aff_0000));
        assert!(covers("10.1.2.3/0", 0) && covers("10.1.2.3", 0x0a01_0203) && !covers("10.1.2.3", 0x0a01_0202));
    }

    #[test]
    fn the_first_line_decides() {
        let listing =
            "*nat\n-A FORWARD -j DROP\n*filter\n:FORWARD ACCEPT [0:0]\n-A FORWARD -p tcp --dport 1:2 -j DROP\n\
                       -A FORWARD -j ACCEPT -p tcp\nCOMMIT\n-A FORWARD -j DROP\n";
        let (permits, rules) = told(listing);
        assert_eq!((permits, rules.len()), (true, 2));
        let flow = |destination_port| Flow { protocol: 6, source: 0, source_port: 0, destination: 0, destination_port };
        assert!(!literally_permits(false, &rules, &flow(2)) && literally_permits(false, &rules, &flow(3)));
    }

    #[test]
    fn lists_are_counted() {
        assert_eq!(lists_of(&[vec!["a"], vec!["b", "c"]], 2).len(), 1 + 2 + 4);
    }
}
