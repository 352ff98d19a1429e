//! Documents 01 and 02 implemented from the documents alone, module by section.
//! It shares no table and no constant with the proved crates.
//!
//! `unit` keeps the list of accepted lines and reads everything off it, charts by a search over
//! all runs, misidentifications by one over all windows. `fast` keeps a state and moves it. The two
//! must always answer alike.

pub mod arguments;
pub mod category;
pub mod charts;
pub mod compound;
pub mod damage;
pub mod difference;
pub mod digits;
pub mod draft;
pub mod fast;
pub mod food_line;
pub mod head;
pub mod lists;
pub mod natural;
pub mod program;
pub mod random;
pub mod refused;
pub mod residue_line;
pub mod single;
pub mod study;
pub mod unit;
pub mod view;
pub mod windows;
pub mod word;
