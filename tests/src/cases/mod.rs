//! Makes cases from a seed: states, damage to them, calls with their arguments, scripts, and what is
//! wrong with images. It makes no call of the proved code.

pub mod choice;
pub mod damage;
pub mod forged;
pub mod harms;
pub mod malformed;
pub mod narrowing;
pub mod pieces;
pub mod script;
pub mod states;
pub mod themes;
