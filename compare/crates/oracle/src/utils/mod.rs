//! Stands for `czsc_signals::utils`.

pub mod sig;
