//! Of the repository's `sig.rs` the functions that `jcc.rs` calls, cut out unchanged by `build.rs`.

use crate::objects::signal::Signal;
use crate::params::ParamView;
use std::str::FromStr;

include!(concat!(env!("OUT_DIR"), "/sig.rs"));
