//! Which pairs are still wanted.

use inputs::pairs::possible;
use jcc_types::RECOGNISERS;
use std::collections::BTreeMap;

pub struct Cover {
    /// How often each pair of each recogniser is still wanted.
    wanted: BTreeMap<(usize, u32), u32>,
}

impl Cover {
    pub fn new(times: u32) -> Cover {
        let pairs = |k| possible(k).into_iter().map(move |pair| (k, pair.number()));
        let wanted = (0..RECOGNISERS).flat_map(pairs);
        Cover {
            wanted: wanted.map(|key| (key, times)).collect(),
        }
    }

    pub fn wants(&self, k: usize, pair: u32) -> bool {
        self.wanted.get(&(k, pair)).is_some_and(|times| *times > 0)
    }

    /// A pair that is in the list now.
    pub fn count(&mut self, k: usize, pair: u32) {
        if let Some(times) = self.wanted.get_mut(&(k, pair)) {
            *times = times.saturating_sub(1);
        }
    }

    pub fn is_complete(&self) -> bool {
        self.wanted.values().all(|times| *times == 0)
    }

    pub fn missing(&self) -> Vec<(usize, u32)> {
        let missing = self.wanted.iter().filter(|(_, times)| **times > 0);
        missing.map(|(key, _)| *key).collect()
    }
}
