//! Made cases for the program `iptables_cases`, each a listing: for every form of a line, every refusal and limit.

use super::calls::listing_case;
use super::not_read::{LINES, NO_RULES, OTHER_OPTIONS};
use super::row::CaseFile;
use crate::format::{MOST_IN_POLICY, MOST_RULES};
use std::fmt::Display;
use std::net::Ipv4Addr;

const FORWARD: &str = ":FORWARD DROP [0:0]\n";

/// A listing with these lines between the chains of its `*filter` part and `COMMIT`.
fn part(lines: &str) -> String {
    format!("*filter\n:INPUT ACCEPT [0:0]\n{FORWARD}{lines}COMMIT\n")
}

fn case(name: &str, listing: String) -> CaseFile {
    listing_case(name, listing.into_bytes())
}

// ---- What isn't read ----

/// Each line before another that isn't read. Where it passes, the other is told.
fn not_read() -> Vec<CaseFile> {
    let before = |name: String, line: &str| case(&name, part(&format!("{line}\n-A FORWARD -z\n")));
    let rule = |(name, words): (&str, &str)| before(format!("rule-{name}"), &format!("-A FORWARD {words}"));
    let rules = NO_RULES.map(rule).into_iter().chain(OTHER_OPTIONS.map(rule));
    rules.chain(LINES.map(|(name, line)| before(format!("line-{name}"), line))).collect()
}

// ---- Rules ----

/// All orders of some words, of which there is at least one.
fn orders(words: &[&str]) -> Vec<String> {
    if let [word] = words {
        return vec![word.to_string()];
    }
    let mut all = Vec::new();
    for (at, first) in words.iter().enumerate() {
        let others = [&words[..at], &words[at + 1..]].concat();
        all.extend(orders(&others).iter().map(|rest| format!("{first} {rest}")));
    }
    all
}

fn rules(lines: impl IntoIterator<Item = impl Display>) -> String {
    lines.into_iter().map(|words| format!("-A FORWARD {words}\n")).collect()
}

/// Rules that are read: their options in all orders, and each option's words from end to end.
fn good_rules() -> Vec<CaseFile> {
    let ordered = |words: &[&str]| rules(orders(words));
    let masks = |option: &str| rules((0..=32).map(|bits| format!("{option} 170.85.170.85/{bits} -j ACCEPT")));
    let protocols = (1..=255).map(|number| format!("-p {number} -j DROP"));
    let named = ["icmp", "tcp", "udp"].map(|name| format!("-p {name} -j DROP"));
    let ports = ["0", "65535", "0:0", "0:65535", "65535:65535", "9:10", "10:10", "1024:65534"];
    let sides = ports.map(|word| format!("-p tcp --sport {word} -j DROP"));
    let other_sides = ports.map(|word| format!("-p udp -m udp --dport {word} -j ACCEPT"));
    vec![
        case("orders-of-four", part(&ordered(&["-s 1.2.3.4/8", "-d 5.6.7.8", "-p 47", "-j DROP"]))),
        case(
            "orders-behind-tcp",
            part(&ordered(&["-j ACCEPT", "--sport 1:2", "--dport 3", "-m tcp"]).replace("FORWARD", "FORWARD -p tcp")),
        ),
        case("masks", part(&[masks("-s"), masks("-d")].concat())),
        case("no-mask", part(&rules(["-s 255.255.255.255 -d 0.0.0.0 -j DROP"]))),
        case("protocols", part(&rules(protocols))),
        case("protocols-by-name", part(&rules(named))),
        case("ports", part(&rules(sides.into_iter().chain(other_sides)))),
        case(
            "every-option",
            part("-A FORWARD -s 1.2.3.4/31 -d 5.6.7.8/30 -p udp -m udp --sport 1:2 --dport 3:4 -j ACCEPT\n"),
        ),
    ]
}

/// The same rule in several spellings; near ones between them.
fn equal_rules() -> Vec<CaseFile> {
    let spelled = |lines: &[&str]| part(&rules(lines));
    let all = ["-j DROP", "-s 0.0.0.0/0 -j DROP", "-j DROP -d 9.9.9.9/0", "-j ACCEPT", "-j DROP"];
    let hosts = ["-s 10.1.2.3/8 -j DROP", "-s 10.0.0.0/8 -j DROP", "-s 10.0.0.0/9 -j DROP", "-s 10.255.0.1/8 -j DROP"];
    let tcp = [
        "-p tcp -j ACCEPT",
        "-p 6 -j ACCEPT",
        "-p tcp -m tcp --dport 0:65535 -j ACCEPT",
        "-p tcp --sport 0:65534 -j ACCEPT",
        "-j ACCEPT -p tcp --sport 0:65535",
    ];
    let between = ["-p udp --dport 7 -j DROP", "-p udp --sport 7 -j DROP", "-p udp --dport 7:7 -j DROP"];
    vec![
        case("equal-all", spelled(&all)),
        case("equal-hosts", spelled(&hosts)),
        case("equal-tcp", spelled(&tcp)),
        case("equal-ports", spelled(&between)),
        case("equal-many", part(&"-A FORWARD -j DROP\n".repeat(1_500))),
    ]
}

/// A low above its high, alone and with a line that isn't read.
fn falling() -> Vec<CaseFile> {
    let (falling, other) = ("-A FORWARD -p tcp --sport 9:8 -j DROP\n", "-A FORWARD -z\n");
    vec![
        case("falling-source-port", part(&format!("{falling}{other}"))),
        case("falling-destination-port", part(&format!("-A FORWARD -p udp --dport 65535:0 -j DROP\n{other}"))),
        case(
            "falling-by-one",
            part(&format!("-A FORWARD -p tcp -m tcp --sport 256:255 --dport 1:2 -j ACCEPT\n{other}")),
        ),
        case("falling-both", part(&format!("-A FORWARD -p tcp --sport 9:8 --dport 7:6 -j DROP\n{other}"))),
        case("falling-behind-not-read", part(&format!("{other}{falling}"))),
        case("falling-and-not-read", part(&format!("-A FORWARD -p tcp --sport 9:8 -j DROP -x y\n{falling}"))),
        case("falling-without-target", part(&format!("-A FORWARD -p tcp --sport 9:8\n{falling}"))),
        case("falling-without-policy", format!("*filter\n{falling}COMMIT\n")),
        case("falling-cut-short", format!("*filter\n{falling}")),
    ]
}

// ---- Chains, parts and ends ----

/// Lines that are passed over in the part.
const PASSED: &str = "\n#\n#COMMIT\n# -A FORWARD -z\n:web - [0:0]\n:web\n:web \n:web  x\ty\n:FORWARDX\n:forward DROP [0:0]\n:FORWARD: x\n\
                      -A web\n-A web -z\n-A web  \"x\"\n-A FORWARDX ! -s\n-A forward -z\n-A :FORWARD -z\n-A -A -z\n-A INPUT -i lo -j FORWARD\n";

/// Lines that are passed over outside of it; some would be read inside.
const OUTSIDE: &str =
    "x\n\n:FORWARD ACCEPT [0:0]\n-A FORWARD -j ACCEPT\n-A FORWARD -z\n[1:60] -A FORWARD -j DROP\n*filter \n *filter\n\
                       *filters\n#*filter\nCOMMIT\nCOMMIT\n*nat\n:FORWARD ACCEPT [0:0]\n-A FORWARD -p 9 -j ACCEPT\n*\n";

fn chains() -> Vec<CaseFile> {
    let rule = "-A FORWARD -p tcp -j ACCEPT\n";
    let of = |policy: &str| format!("*filter\n:FORWARD {policy}\nCOMMIT\n");
    let many = "9".repeat(40);
    vec![
        case("empty", String::new()),
        case("no-filter", OUTSIDE.to_string()),
        case("no-policy", "*filter\nCOMMIT\n".to_string()),
        case("no-policy-but-a-rule", format!("*filter\n{rule}COMMIT\n")),
        case("policy-outside", format!("{FORWARD}*filter\nCOMMIT\n*nat\n{FORWARD}COMMIT\n")),
        case("two-policies", part(FORWARD)),
        case("two-policies-in-two-parts", [part(rule), part("")].concat()),
        case("policy-accept", of("ACCEPT [0:0]")),
        case("policy-drop", of("DROP [18446744073709551616:4294967296]")),
        case("policy-counters", of(&format!("ACCEPT [{many}:{many}]"))),
        case(
            "policy-of-another-chain",
            format!("*filter\n:INPUT ACCEPT [0:0]\n{FORWARD}:OUTPUT ACCEPT [0:0]\nCOMMIT\n"),
        ),
        case("policy-behind-rules", format!("*filter\n{rule}:FORWARD ACCEPT [0:0]\n{rule}COMMIT\n")),
        case("passed-over", part(&format!("{PASSED}{rule}{PASSED}"))),
        case("outside", format!("{OUTSIDE}{}{OUTSIDE}*filter", part(rule))),
        case("counted-in-the-whole", format!("{OUTSIDE}{}", part("-A FORWARD -z\n"))),
        case("two-parts", format!("*filter\n{rule}COMMIT\n{OUTSIDE}{}", part("-A FORWARD -j DROP\n"))),
        case("second-part-not-read", format!("{}*filter\n-A FORWARD -z\nCOMMIT\n", part(rule))),
    ]
}

/// How a part ends, and how a listing is cut short.
fn ends() -> Vec<CaseFile> {
    let open = format!("*filter\n{FORWARD}-A FORWARD -p tcp -j ACCEPT\n");
    let ended = [
        ("star", "*\n"),
        ("other-table", "*nat\n-A FORWARD -z\n"),
        ("filter-again", "*filter\n-A FORWARD -j DROP\nCOMMIT\n"),
        ("more-behind", "COMMIT\nx"),
        ("filter-cut-short", "COMMIT\n*filter"),
        ("filter-begun", "COMMIT\n*filter\n"),
        ("open", ""),
        ("open-behind-empty", "\n\n"),
        ("open-comment", "# x"),
        ("open-commit", "COMMIT"),
        ("open-star", "*nat"),
        ("open-rule", "-A FORWARD -j DROP"),
        ("open-other-chain", "-A web -j DROP"),
    ];
    ended.map(|(name, end)| case(&format!("end-{name}"), format!("{open}{end}"))).into()
}

// ---- Limits ----

/// So many different rules.
fn different(count: usize) -> String {
    rules((0..count as u32).map(|number| format!("-s {} -j DROP", Ipv4Addr::from(number))))
}

fn limits() -> Vec<CaseFile> {
    let most = different(MOST_IN_POLICY);
    vec![
        case("longest-file", format!("*filter\n:FORWARD ACCEPT [0:0]\n{most}COMMIT\n")),
        case("rules-513-without-policy", format!("*filter\n{}COMMIT\n", different(MOST_IN_POLICY + 1))),
        case("rules-1025-without-policy", format!("*filter\n{}COMMIT\n", different(MOST_RULES + 1))),
        case("rules-1025-and-not-read", part(&format!("{}-A FORWARD -z\n", different(MOST_RULES + 1)))),
    ]
}

pub fn made() -> Vec<CaseFile> {
    [not_read(), good_rules(), equal_rules(), falling(), chains(), ends(), limits()].into_iter().flatten().collect()
}
