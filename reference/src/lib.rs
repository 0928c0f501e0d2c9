//! Reference implementation of a small shared heap with quotas and claims.
//!
//! It is written from the rules alone, which are in `docs/RULES.md`, and serves as the second
//! program against which another implementation is compared. Every call decodes the heap into a
//! map of the blocks that are not free, works on that map and writes the headers again from it.
//!
//! Every call accepts any heap bytes of any length, any accounts and any
//! numbers. A refused call leaves heap and accounts as they were.

#![forbid(unsafe_code)]
#![warn(missing_docs)]

// Each module imports only from the groups above its own.
mod frames;
mod options;
mod permissions;
mod refusal;
mod settings;

mod rounding;

mod layout;

mod accounts;

mod forms;
mod report;
mod sound;

mod claims;
mod clearing;
mod image;
mod queries;
mod statistics;

mod allocation;
mod comparison;
mod moves;
mod queue;

mod replay;

pub use accounts::{Accounts, Hold, Quota, HOLDS, QUOTAS};
pub use allocation::{allocate, allocate_array, open, open_with, reallocate};
pub use claims::{can_release, claim, free_all, release, sweep};
pub use clearing::clear_permissions;
pub use comparison::{differences, Difference, Which};
pub use image::{
    image_length, image_length_form_1, read_image, write_form_1, write_image, ImageRefusal,
};
pub use layout::{Block, Handle, HEADER_BYTES, QUARANTINED_SERIAL, SIZE_UNIT};
pub use moves::{move_down, move_up};
pub use options::{Edition, Kind, Options};
pub use permissions::ALL_PERMISSIONS;
pub use queries::{block_at, lend, lend_mut, remaining, Walker};
pub use queue::{receive, send, Queue, QueueRefusal, QUEUE_PLACES};
pub use refusal::Refusal;
pub use replay::{replay, MAX_INPUT};
pub use report::{export_grants, import_grants, ReportRefusal, REPORT_BYTES};
pub use rounding::{round_request, unit_of, Rounded, MAX_REQUEST};
pub use settings::{add_setting, find_setting, setting, SettingRefusal, Source, Store};
pub use sound::{check, MAX_HEAP, MIN_HEAP};
pub use statistics::{quota_statistics, statistics, BlockCount, QuotaStatistics, Statistics};
