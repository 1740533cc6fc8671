//! Document 01's sizes, places and limits, by the names that crates/model/specs has for them. tests/gate/layout shows that they agree, and `check` that the
//! simulator has the same where it names one.

use crate::level;
use second_simulator::image as simulated;
use second_simulator::ops::LONG_SIDES;

pub const IMAGE_SIZE: usize = 2128;
pub const MARK: &[u8; 3] = b"WMC";
pub const VERSION: u16 = 1;
pub const VERSION_AT: usize = 3;
pub const STATION_COUNT_AT: usize = 5;
pub const LIVE_COUNT_AT: usize = 6;
pub const HEADER_ZERO_AT: usize = 7;
pub const CLOCK_AT: usize = 8;
pub const NEXT_AT: usize = 12;

// In an image, an entry for each station; and the places in it.
pub const SERVICES_AT: usize = 16;
pub const SERVICE_SIZE: usize = 8;
pub const SERVED_AT: usize = 0;
pub const LEFT_AT: usize = 4;
pub const SERVICE_ZERO_AT: usize = 6;

// In an image, a record for each live order; and the places in it.
pub const RECORDS_AT: usize = 80;
pub const RECORD_SIZE: usize = 64;
pub const TICKET_AT: usize = 0;
pub const ACCEPTED_AT: usize = 4;
pub const DUE_AT: usize = 8;
pub const SUM_AT: usize = 12;
pub const STATION_AT: usize = 16;
pub const STATION_ZERO_AT: usize = 17;
pub const RANKS_AT: usize = 20;
pub const COSTS_AT: usize = 28;
pub const MAXIMA_AT: usize = 44;
pub const RECORD_ZERO_AT: usize = 60;

pub const BLOCK_SIZE: usize = 28;
pub const BLOCK_DUE_IN_AT: usize = 0;
pub const BLOCK_RANKS_AT: usize = 4;
pub const BLOCK_COSTS_AT: usize = 12;

pub const SHEET_SIZE: usize = 32;
pub const SHEET_FIXED_AT: usize = 0;
pub const SHEET_SPEEDS_AT: usize = 16;

pub const REPLY_SIZE: usize = 16;
pub const REPLY_NUMBER_AT: usize = 0;
pub const REPLY_TICKET_AT: usize = 4;
pub const REPLY_TICK_AT: usize = 8;
pub const REPLY_MARGIN_AT: usize = 12;

pub const MAX_STATIONS: usize = 8;
pub const MAX_COST: u16 = 6_000;
pub const MAX_DUE_IN: u32 = 60_000;
pub const DEFAULT_DUE_IN: u32 = 9_000;
pub const MAX_LIVE: usize = 32;
pub const MAX_FORMAT: u32 = 10;
pub const LAST_TICK: u32 = 4_000_000_000;
pub const LAST_TICKET: u32 = 4_294_967_295;

/// The length of an image of another version, that of request (vii) of document 02: here it is a wrong one.
pub const OTHER_IMAGE_SIZE: usize = 3152;

/// Where the entry of a station begins, and where the record of an order does, both counted from 0.
pub const fn service(j: usize) -> usize { SERVICES_AT + SERVICE_SIZE * j }
pub const fn record(k: usize) -> usize { RECORDS_AT + RECORD_SIZE * k }

/// Ends the program if the simulator has another figure at the level of tests/level.
pub fn check() {
    let at = level();
    let figures = [
        ("IMAGE_SIZE", IMAGE_SIZE, at.image_len()), ("RECORD_SIZE", RECORD_SIZE, at.record_len()), ("BLOCK_SIZE", BLOCK_SIZE, at.block_len()),
        ("VERSION", usize::from(VERSION), usize::from(at.version())), ("DEFAULT_DUE_IN", DEFAULT_DUE_IN as usize, at.default_due_in() as usize),
        ("MAX_STATIONS", MAX_STATIONS, simulated::MAX_STATIONS), ("MAX_COST", usize::from(MAX_COST), simulated::MAX_COST as usize),
        ("MAX_DUE_IN", MAX_DUE_IN as usize, simulated::MAX_DUE_IN as usize), ("MAX_LIVE", MAX_LIVE, simulated::MAX_LIVE),
        ("LAST_TICK", LAST_TICK as usize, simulated::CLOCK_END as usize), ("MAX_FORMAT", MAX_FORMAT as usize, LONG_SIDES.len()),
    ];
    for (name, ours, theirs) in figures {
        if ours != theirs {
            println!("{name} of tests/compare/src/layout.rs is {ours}, and {theirs} for the second simulator at level {}", at.number());
            std::process::exit(1);
        }
    }
    assert_eq!(MARK, simulated::MARK);
}
