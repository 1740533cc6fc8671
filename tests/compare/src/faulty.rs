//! The same program; build.rs links it with the library behind the faults of faults.c.
include!("main.rs");
