//! The functions that give statistics. They read the accounts in place.

use super::Words;
use crate::statistics::{QuotaStatisticsReply, StatisticsReply};

extern "C" {
    fn lokhazim_raw_statistics(
        heap: *const u8,
        length: usize,
        words: *const Words,
    ) -> StatisticsReply;
    fn lokhazim_raw_quota_statistics(
        heap: *const u8,
        length: usize,
        words: *const Words,
        quota: u32,
    ) -> QuotaStatisticsReply;
}

pub fn statistics(heap: &[u8], words: &Words) -> StatisticsReply {
    // SAFETY: pointer and length are those of a slice, and the other pointer that of words; both
    // are borrowed for the call, which writes nothing.
    unsafe { lokhazim_raw_statistics(heap.as_ptr(), heap.len(), words) }
}

pub fn quota_statistics(heap: &[u8], words: &Words, quota: u32) -> QuotaStatisticsReply {
    // SAFETY: as in `statistics`.
    unsafe { lokhazim_raw_quota_statistics(heap.as_ptr(), heap.len(), words, quota) }
}
