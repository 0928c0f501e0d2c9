//! Makes the calls: each case goes to the proved code, by its boundary or as a program, and to the
//! reference, and what the two leave is judged.

#[allow(unsafe_code)]
pub mod boundary;
pub mod calls;
pub mod cleanup;
pub mod comparisons;
pub mod histories;
pub mod image_cases;
pub mod images;
pub mod lent;
pub mod moves;
pub mod programs;
mod queue_words;
pub mod queues;
pub mod reports;
pub mod rounds;
mod sending;
pub mod settings;
pub mod unsound;
pub mod wanted;
pub mod words;
