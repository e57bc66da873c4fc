//! Stands for `czsc_core::objects`: of each type, what `jcc.rs` uses.

/// Stands for `objects::bar`: the four prices; symbol, time, id, volume and amount are left out.
pub mod bar {
    pub struct RawBar {
        pub open: f64,
        pub close: f64,
        pub high: f64,
        pub low: f64,
    }
}

/// Stands for `objects::bi`: a stroke. Only `jcc_shan_chun_v221121` reads one, which is not called.
pub mod bi {
    use super::direction::Direction;

    pub struct BI {
        pub direction: Direction,
        pub high: f64,
        pub low: f64,
    }

    impl BI {
        pub fn get_high(&self) -> f64 {
            self.high
        }

        pub fn get_low(&self) -> f64 {
            self.low
        }
    }
}

/// Stands for `objects::direction`.
pub mod direction {
    pub enum Direction {
        Up,
        Down,
    }
}

/// Stands for `objects::freq`: one period of the twenty-one, with its text.
pub mod freq {
    use std::fmt;

    #[derive(Clone, Copy)]
    pub enum Freq {
        D,
    }

    impl fmt::Display for Freq {
        fn fmt(&self, f: &mut fmt::Formatter<'_>) -> fmt::Result {
            match self {
                Freq::D => f.pad("日线"),
            }
        }
    }
}

/// Stands for `objects::signal`: the text cut into its seven parts, each in a string of its own as
/// in the repository, so that the benchmark pays the same price.
pub mod signal {
    use std::borrow::Cow;
    use std::str::FromStr;

    type Text = Cow<'static, str>;

    pub struct Signal {
        pub signal: Text,
        pub k1: Text,
        pub k2: Text,
        pub k3: Text,
        pub v1: Text,
        pub v2: Text,
        pub v3: Text,
        pub score: i32,
    }

    impl FromStr for Signal {
        type Err = String;

        fn from_str(s: &str) -> Result<Signal, String> {
            let parts: Vec<&str> = s.split('_').collect();
            let [k1, k2, k3, v1, v2, v3, score] = parts[..] else {
                return Err(format!("{} parts instead of seven", parts.len()));
            };
            let score: i32 = score.parse().map_err(|_| "no score".to_string())?;
            if !(0..=100).contains(&score) {
                return Err("a score outside 0 to 100".to_string());
            }
            let own = |part: &str| Cow::Owned(part.to_string());
            Ok(Signal {
                signal: own(s),
                k1: own(k1),
                k2: own(k2),
                k3: own(k3),
                v1: own(v1),
                v2: own(v2),
                v3: own(v3),
                score,
            })
        }
    }
}
