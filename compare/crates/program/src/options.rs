//! The command line of a run.

/// The values of options that are numbers. They stand in any order; one that is not given has the
/// value beside its name.
pub fn numbers<const N: usize>(
    mut arguments: impl Iterator<Item = String>,
    mut options: [(&str, u64); N],
    usage: &str,
) -> Result<[u64; N], String> {
    while let Some(name) = arguments.next() {
        let option = options.iter_mut().find(|(known, _)| *known == name);
        let (_, value) = option.ok_or(usage)?;
        *value = number(&arguments.next().ok_or(usage)?, usage)?;
    }
    Ok(options.map(|(_, value)| value))
}

pub fn number(text: &str, usage: &str) -> Result<u64, String> {
    text.parse()
        .map_err(|_| format!("{text} is no number; {usage}"))
}

/// The options of a comparison over random histories.
pub struct Histories {
    pub seed: u64,
    /// How many there are.
    pub histories: u64,
}

impl Histories {
    /// Those that the program of this name is given.
    pub fn from_arguments(program: &str) -> Result<Histories, String> {
        let arguments = std::env::args().skip(1);
        let known = [("--seed", 1), ("--histories", 20_000)];
        let usage = format!("{program} [--seed N] [--histories N]");
        let [seed, histories] = numbers(arguments, known, &usage)?;
        Ok(Histories { seed, histories })
    }
}
