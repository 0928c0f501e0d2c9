//! The exported statistics, with the layout of the crate `exports`.

use lokhazim_reference::{Accounts, BlockCount, QuotaStatistics, Statistics};

use super::CAccounts;

/// Some blocks.
#[repr(C)]
#[derive(Clone, Copy)]
struct CBlockCount {
    blocks: usize,
    bytes: usize,
}

/// The statistics of a heap.
#[repr(C)]
struct Reply {
    refusal: u32,
    last_serial: u32,
    records: usize,
    free: CBlockCount,
    live: CBlockCount,
    quarantined: CBlockCount,
    largest_free: usize,
    fragmented: usize,
    largest_8: usize,
    largest_16: usize,
    largest_32: usize,
    largest_64: usize,
}

/// The statistics of a quota.
#[repr(C)]
struct QuotaReply {
    refusal: u32,
    grant: u32,
    remaining: u32,
    objects: usize,
    shared: usize,
}

extern "C" {
    fn lokhazim_raw_statistics(heap: *const u8, length: usize, accounts: *const CAccounts)
        -> Reply;
    fn lokhazim_raw_quota_statistics(
        heap: *const u8,
        length: usize,
        accounts: *const CAccounts,
        quota: u32,
    ) -> QuotaReply;
}

impl From<CBlockCount> for BlockCount {
    fn from(count: CBlockCount) -> BlockCount {
        BlockCount {
            blocks: count.blocks,
            bytes: count.bytes,
        }
    }
}

/// The proved statistics of a heap, and the refusal's number, 0 where there is none.
pub fn statistics(heap: &[u8], accounts: &Accounts) -> (u32, Statistics) {
    let accounts = CAccounts::from(accounts);
    // Safety: pointer and length are those of a borrowed slice, the accounts are a local, and the
    // function accepts any bytes and numbers.
    let told = unsafe { lokhazim_raw_statistics(heap.as_ptr(), heap.len(), &accounts) };
    let given = Statistics {
        last_serial: told.last_serial,
        records: told.records,
        free: told.free.into(),
        live: told.live.into(),
        quarantined: told.quarantined.into(),
        largest_free: told.largest_free,
        fragmented: told.fragmented,
        largest: [
            told.largest_8,
            told.largest_16,
            told.largest_32,
            told.largest_64,
        ],
    };
    (told.refusal, given)
}

/// The proved statistics of a quota, and the refusal's number, 0 where there is none.
pub fn quota_statistics(heap: &[u8], accounts: &Accounts, quota: u32) -> (u32, QuotaStatistics) {
    let accounts = CAccounts::from(accounts);
    // Safety: as in `statistics`.
    let told =
        unsafe { lokhazim_raw_quota_statistics(heap.as_ptr(), heap.len(), &accounts, quota) };
    let given = QuotaStatistics {
        grant: told.grant,
        remaining: told.remaining,
        objects: told.objects,
        shared: told.shared,
    };
    (told.refusal, given)
}
