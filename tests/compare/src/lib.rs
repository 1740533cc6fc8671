//! The comparison of libdispatcher.a and plan with the second simulator: every call is made on both, on buffers with guard bytes around them, and number,
//! reply, image, order block or sheet have to be the same to the last byte. Lists from a cabinet just opened are read by the simulator's run book as well
//! (demand 3).
//!
//! `lent` has the buffers, `desk` makes one call on both and writes the list of a difference, `counts` says what was seen. `book`, `lists`, `limits` and `damage`
//! make lists of calls, `formats` orders by paper format, `plan` makes tables, `layout` has the figures of document 01, and `command` is the command line.

pub mod book;
pub mod command;
pub mod counts;
pub mod damage;
pub mod desk;
pub mod formats;
pub mod layout;
pub mod lent;
pub mod limits;
pub mod lists;
pub mod plan;

use second_simulator::level::Level;
use std::sync::OnceLock;

/// How much of document 02 the simulator is asked for: the level of tests/level.
pub fn level() -> Level {
    static LEVEL: OnceLock<Level> = OnceLock::new();
    let read = || include_str!("../../level").trim().parse().ok().and_then(Level::new).expect("tests/level has no level of the second simulator");
    *LEVEL.get_or_init(read)
}
