//! Stands for `czsc_signals::params`: a read-only view of a table of parameters.

use std::collections::HashMap;

/// Stands for `serde_json::Value`: a number without or with a fraction, or text. As there, a whole
/// number is also an f64, and a fraction is no u64.
pub enum Value {
    Whole(u64),
    Real(f64),
    Text(String),
}

impl Value {
    pub fn as_u64(&self) -> Option<u64> {
        match self {
            Value::Whole(n) => Some(*n),
            _ => None,
        }
    }

    pub fn as_f64(&self) -> Option<f64> {
        match self {
            Value::Whole(n) => Some(*n as f64),
            Value::Real(x) => Some(*x),
            Value::Text(_) => None,
        }
    }

    pub fn as_str(&self) -> Option<&str> {
        match self {
            Value::Text(s) => Some(s),
            _ => None,
        }
    }
}

pub struct ParamView<'a> {
    inner: &'a HashMap<String, Value>,
}

impl<'a> ParamView<'a> {
    pub fn new(inner: &'a HashMap<String, Value>) -> ParamView<'a> {
        ParamView { inner }
    }

    pub fn value(&self, key: &str) -> Option<&Value> {
        self.inner.get(key)
    }
}
