//! Stands for `czsc_core::analyze`.

use crate::objects::bar::RawBar;
use crate::objects::bi::BI;
use crate::objects::freq::Freq;

/// Stands for the analyser: of its fields, those that `jcc.rs` reads.
pub struct CZSC {
    pub bars_raw: Vec<RawBar>,
    pub bi_list: Vec<BI>,
    pub freq: Freq,
}
