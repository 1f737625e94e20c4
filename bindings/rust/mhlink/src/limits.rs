//! The limits and the usage of a history.

use mhlink_sys as sys;

/// The limits of a history. The default is the widest.
#[derive(Clone, Copy, Debug, PartialEq, Eq)]
pub struct Limits {
    /// The most records, that is, flushes and changes: 0 to 2^20. Calls are none.
    pub history: u64,
    /// The most unflushed hits of a link by a worker: 1 to 2^20.
    pub ledger: u64,
    /// The most flushed hits of a link: 0 to 2^40.
    pub total: u64,
}

impl Default for Limits {
    fn default() -> Limits {
        Limits {
            history: 1 << 20,
            ledger: 1 << 20,
            total: 1 << 40,
        }
    }
}

impl Limits {
    pub(crate) fn to_raw(self) -> sys::mhlink_limits {
        sys::mhlink_limits {
            history: self.history,
            ledger: self.ledger,
            total: self.total,
        }
    }
}

/// The part of the flushed hits that a renewal keeps.
#[derive(Clone, Copy, Debug, PartialEq, Eq)]
pub enum OldHits {
    /// All of them.
    Keep,
    /// Half of each worker's at a link, rounded down.
    Halve,
    /// None.
    Drop,
}

impl OldHits {
    pub(crate) fn to_raw(self) -> u32 {
        match self {
            OldHits::Keep => sys::MHLINK_KEEP_HITS,
            OldHits::Halve => sys::MHLINK_HALVE_HITS,
            OldHits::Drop => sys::MHLINK_DROP_HITS,
        }
    }
}

/// The usage of a history.
#[derive(Clone, Copy, Debug, PartialEq, Eq)]
pub struct Usage {
    /// The number of records.
    pub records: u64,
    /// The number of snapshots, at most 1,024.
    pub snapshots: u64,
    /// The number of plans, at most 1,024.
    pub plans: u64,
}

impl Usage {
    pub(crate) fn from_raw(used: sys::mhlink_usage) -> Usage {
        Usage {
            records: used.records,
            snapshots: used.snapshots,
            plans: used.plans,
        }
    }
}
