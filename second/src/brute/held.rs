//! What must hold, and what is said when it doesn't.

/// Stops with a description when something that must hold doesn't.
pub type Held = Result<(), String>;

pub fn must(holds: bool, say: impl FnOnce() -> String) -> Held {
    if holds {
        Ok(())
    } else {
        Err(say())
    }
}
