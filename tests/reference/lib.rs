//! An independent reference for the codec, written straight from the protocol table:
//! rows written out, long division, and a decoder that guesses, rebuilds and compares.
//! Over it the ARP controller with maps and sets, and a bus that runs bit by bit.

pub mod addresses;
pub mod bus;
pub mod changes;
pub mod choices;
pub mod commands;
pub mod console;
mod console_module;
pub mod controller;
pub mod damage;
pub mod decode;
pub mod every;
pub mod families;
pub mod good;
pub mod hostile;
pub mod mistakes;
pub mod model;
pub mod module;
pub mod module_bus;
pub mod module_cases;
pub mod module_events;
pub mod module_lines;
pub mod numbers;
pub mod orders;
pub mod pec;
pub mod plain_rule;
pub mod random;
pub mod recorder;
pub mod reports;
pub mod requests;
pub mod samples;
pub mod shelf_passes;
pub mod shelves;
pub mod spoiled;
pub mod standing;
pub mod stored;
pub mod table;
pub mod table_17;
pub mod text;
