//! Stands for `czsc_signals::types`.

/// Stands for the cache of indicators, which `jcc.rs` takes and never reads.
pub struct TaCache;
