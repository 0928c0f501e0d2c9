//! Holds answers to each other and to the harness's own reading of the rules, counts them, and saves
//! what differs. It makes no call of the proved code.

pub mod case;
pub mod compare;
pub mod cut;
pub mod forms;
pub mod ledger;
pub mod rules;
pub mod sentences;
pub mod tally;
