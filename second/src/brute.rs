//! Brute force over small lists: all pairs of policies for the planners, all
//! short scripts for the judge, each with every pattern of match and action; all
//! moves of maker B, and all short texts; all short rule lines, and made listings.

mod held;
mod listings;
mod literal;
mod moves;
mod plans;
mod scripts;

/// The script enumeration uses this many rules and commands.
const SCRIPT_RULES: u16 = 3;
const SCRIPT_COMMANDS: usize = 3;

fn report(name: &str, outcome: Result<String, String>) -> bool {
    match &outcome {
        Ok(counts) => println!("{name}: {counts}"),
        Err(fault) => println!("{name}: FAILS: {fault}"),
    }
    outcome.is_ok()
}

/// Runs everything, with policies over so many rules for the planners and for the moves.
pub fn run(rules: u16) -> bool {
    report("plans", plans::test_all(rules))
        & report("scripts", scripts::test_all(SCRIPT_RULES, SCRIPT_COMMANDS))
        & report("console text", moves::test_all(rules))
        & report("listings", listings::test_all())
}
