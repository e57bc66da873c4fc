//! Runs the programs on an input and compares what they print with what the model prints.

use crate::process::{self, Way};
use crate::programs::{
    LABELS, NAMES, Outputs, Printed, Programs, TALLY, Wrong, first_difference, first_wrong,
};
use crate::tally::Tally;
use labels_model::judge::{Port, Repository};
use std::path::Path;
use std::{fs, io};

/// Inputs up to so many bytes are judged by the repository too.
const MOST_JUDGED: usize = 1 << 16;

/// The most runs that make a differing input smaller.
const MOST_CUTS: usize = 300;

/// A text for the report, and what the difference can be seen with.
pub struct Difference {
    text: String,
    files: Vec<(&'static str, Vec<u8>)>,
}

impl Difference {
    pub fn new(text: String) -> Difference {
        Difference {
            text,
            files: Vec::new(),
        }
    }

    fn with(text: String, input: &[u8], expected: &[u8], printed: &[u8]) -> Difference {
        Difference {
            text,
            files: vec![
                ("input", input.to_vec()),
                ("expected", expected.to_vec()),
                ("printed", printed.to_vec()),
            ],
        }
    }

    /// Saves the files and gives the text of the report.
    pub fn report(&self, folder: &Path) -> String {
        let mut text = format!("DIFFERENCE\n{}", self.text);
        if !self.files.is_empty() {
            let names: Vec<&str> = self.files.iter().map(|(name, _)| *name).collect();
            let (names, place) = (names.join(", "), folder.display());
            text += &match self.save(folder) {
                Ok(()) => format!("\n{names}: in {place}"),
                Err(error) => format!("\n{names} could not be saved in {place}: {error}"),
            };
        }
        text
    }

    fn save(&self, folder: &Path) -> io::Result<()> {
        fs::create_dir_all(folder)?;
        let mut files = self.files.iter();
        files.try_for_each(|(name, bytes)| fs::write(folder.join(name), bytes))
    }
}

/// The judge of a thread.
pub struct Check<'a> {
    pub programs: &'a Programs,
    pub tally: Tally,
}

impl<'a> Check<'a> {
    pub fn new(programs: &'a Programs) -> Check<'a> {
        Check {
            programs,
            tally: Tally::default(),
        }
    }

    /// The programs must print what the model prints, in every one of the ways.
    pub fn input(&mut self, input: &[u8], ways: &[Way]) -> Result<(), Difference> {
        let expected = Printed::of(input, &mut Port::new());
        if input.len() <= MOST_JUDGED {
            self.judge(input, &expected)?;
        }
        for way in ways {
            let printed = self.run(input, way).map_err(|(program, wrong)| {
                let wrong = format!("{}: {wrong} (input: {way:?})", NAMES[program]);
                Difference::with(wrong, input, &expected.outputs[program], &[])
            })?;
            if let Some(wrong) = first_wrong(&expected, &printed) {
                return Err(self.smallest(input, wrong, way));
            }
        }
        self.tally.count(input, &expected);
        Ok(())
    }

    /// The model's labels, and their counts, must be the repository's.
    fn judge(&mut self, input: &[u8], expected: &Printed) -> Result<(), Difference> {
        let mut repository = Repository::new();
        let judged = Printed::of(input, &mut repository).outputs;
        for program in [LABELS, TALLY] {
            let [judged, expected] = [&judged[program], &expected.outputs[program]];
            if judged != expected {
                let place = first_difference(judged, expected);
                let name = NAMES[program];
                let wrong = format!("{name}: by the repository the model is wrong. {place}");
                return Err(Difference::with(wrong, input, judged, expected));
            }
        }
        self.tally.judged += 1;
        self.tally.corners += repository.corners;
        Ok(())
    }

    /// What the programs print. An error is one that does not end by itself, with status 0 and
    /// nothing on standard error.
    fn run(&mut self, input: &[u8], way: &Way) -> Result<Outputs, (usize, String)> {
        let mut outputs = Outputs::default();
        for (program, output) in outputs.iter_mut().enumerate() {
            let ended = process::run(&self.programs[program], input, way);
            *output = ended
                .and_then(|ended| {
                    self.tally.count_run(&ended);
                    ended.quiet()
                })
                .map_err(|wrong| (program, wrong))?;
        }
        Ok(outputs)
    }

    /// Leaves lines out as long as a program still differs. Long inputs are left as they are.
    fn smallest(&mut self, input: &[u8], mut wrong: Wrong, way: &Way) -> Difference {
        let mut lines: Vec<&[u8]> = input.split_inclusive(|byte| *byte == b'\n').collect();
        let mut runs = if input.len() <= MOST_JUDGED {
            MOST_CUTS
        } else {
            0
        };
        let mut size = lines.len() / 2;
        while size > 0 && runs > 0 {
            let mut start = 0;
            while start < lines.len() && runs > 0 {
                let end = (start + size).min(lines.len());
                let fewer = [&lines[..start], &lines[end..]].concat();
                runs -= 1;
                if let Some(other) = self.differs(&fewer.concat(), way) {
                    lines = fewer;
                    wrong = other;
                } else {
                    start = end;
                }
            }
            size /= 2;
        }
        let Wrong {
            who,
            expected,
            printed,
        } = wrong;
        let place = first_difference(&expected, &printed);
        let text = format!("{who}: {place} (input: {way:?})");
        Difference::with(text, &lines.concat(), &expected, &printed)
    }

    /// What is wrong with what the programs print, if it is not what the model prints.
    fn differs(&mut self, input: &[u8], way: &Way) -> Option<Wrong> {
        let expected = Printed::of(input, &mut Port::new());
        let printed = self.run(input, way).ok()?;
        first_wrong(&expected, &printed)
    }
}
