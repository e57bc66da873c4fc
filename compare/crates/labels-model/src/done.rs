//! How far a run came.

use crate::refusal::Refusal;

/// What a run has done.
#[derive(Clone, Copy, Debug, Default, PartialEq, Eq)]
pub struct Done {
    /// The lines whose bars were labelled.
    pub bars: u64,
    /// The refusal that ended the run; without one the input ended it.
    pub refusal: Option<Refusal>,
}
