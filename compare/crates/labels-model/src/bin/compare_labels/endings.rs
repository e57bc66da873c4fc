//! Runs whose output cannot be written or whose input cannot be read: a program must end, without a
//! message.

use crate::check::{Check, Difference};
use crate::good;
use crate::process::{self, Ended, InputFile, LIMIT, Way, run_command};
use crate::programs::{NAMES, Printed};
use inputs::rng::Rng;
use labels_model::judge::Port;
use std::fs::File;
use std::io::{self, BufReader, Read, Write};
use std::os::unix::process::ExitStatusExt;
use std::path::Path;
use std::process::{Command, Stdio};
use std::thread;
use std::time::{Duration, Instant};

/// The signal that a process gets when it writes to a pipe without a reader.
const SIGPIPE: i32 = 13;

/// How long a program has to stop at a line that is too long and has not ended.
const OPEN_LIMIT: Duration = Duration::from_secs(5);

/// The lines of a long input: its labels are more than any buffer of output.
const LONG: usize = 100_000;

pub fn all(check: &mut Check, rng: &mut Rng) -> Result<(), Difference> {
    let long = good::walk(rng, LONG);
    let inputs: [&[u8]; 5] = [
        b"",
        b"5,6,7,4\n",
        b"5,6,7,4\n5,6,8,3\n",
        b"5,6,7,4\n5,6,8,3\nbad\n",
        &long,
    ];
    let programs = check.programs;
    for (name, program) in NAMES.into_iter().zip(programs) {
        let mut runs = Runs {
            check,
            name,
            program,
        };
        for input in inputs {
            for way in [Way::Pipe, Way::File] {
                runs.outputs(input, &way)?;
            }
            runs.piped(input)?;
        }
        runs.unreadable()?;
        runs.open()?;
    }
    broken(check)
}

/// Input that fails after some bytes: a line that has begun is not judged, and there are no counts of
/// half an input.
fn broken(check: &mut Check) -> Result<(), Difference> {
    let inputs: [&[u8]; 7] = [
        b"",
        b"5,6,7,4\n5,6,8,3\n",
        b"5,6,7,4\n5,6,8,3",
        b"5,6,7,4\n5,6,8,3\n5",
        b"5,6,7,4\n5,6,8,3\nbad",
        b"5,6,7,4\n5,6,8,3\nbad\n",
        b"bad\n5,6,7,4\n5,6,8,3\n",
    ];
    for input in inputs {
        let failing = BufReader::new(input.chain(Failing));
        let expected = Printed::of(failing, &mut Port::new()).outputs;
        for ((name, program), expected) in NAMES.iter().zip(check.programs).zip(expected) {
            let printed = process::run(program, input, &Way::Broken).and_then(Ended::quiet);
            check.tally.endings += 1;
            if printed.as_ref() != Ok(&expected) {
                let input = input.escape_ascii();
                let [printed, expected] = [printed, Ok(expected)]
                    .map(|output| output.map(|o| String::from_utf8_lossy(&o).into_owned()));
                return Err(Difference::new(format!(
                    "{name}, input that fails after {input}: {printed:?} instead of {expected:?}"
                )));
            }
        }
    }
    Ok(())
}

/// Reads that fail.
struct Failing;

impl Read for Failing {
    fn read(&mut self, _: &mut [u8]) -> io::Result<usize> {
        Err(io::Error::other("the input fails here"))
    }
}

/// Runs of one program.
struct Runs<'r, 'p> {
    check: &'r mut Check<'p>,
    name: &'static str,
    program: &'p Path,
}

impl Runs<'_, '_> {
    /// Output that is closed, open for reading only, full, or left by its reader.
    fn outputs(&mut self, input: &[u8], way: &Way) -> Result<(), Difference> {
        for redirection in [">&-", "1</dev/null", ">/dev/full", ">&- 2>&-"] {
            let mut command = self.shell(&format!("exec \"$0\" {redirection}"));
            self.ends(&mut command, input, way, 0, redirection)?;
        }
        let full = File::options().write(true).open("/dev/full");
        let full = full.map_err(|e| Difference::new(format!("/dev/full: {e}")))?;
        let mut command = Command::new(self.program);
        command.stdout(full);
        self.ends(&mut command, input, way, 0, "/dev/full")?;
        for most in [0, 1, 10, 5000, 70_000] {
            let mut command = Command::new(self.program);
            command.stdout(Stdio::piped());
            let what = format!("a reader that leaves after {most} bytes");
            self.ends(&mut command, input, way, most, &what)?;
        }
        Ok(())
    }

    /// As at the command line.
    fn piped(&mut self, input: &[u8]) -> Result<(), Difference> {
        let file = InputFile::new(input).map_err(|e| Difference::new(format!("a file: {e}")))?;
        for reader in ["head -c 10", "true"] {
            let mut command = self.shell(&format!("\"$0\" < \"$1\" | {reader}"));
            command.arg(&file).stdout(Stdio::piped());
            self.ends(&mut command, b"", &Way::Pipe, usize::MAX, reader)?;
        }
        Ok(())
    }

    /// Input that is closed, open for writing only, or a folder: nothing is printed.
    fn unreadable(&mut self) -> Result<(), Difference> {
        for redirection in ["<&-", "0>/dev/null", "</"] {
            let mut command = self.shell(&format!("exec \"$0\" {redirection}"));
            command.stdout(Stdio::piped());
            let most = usize::MAX;
            let printed = self.ends(&mut command, b"", &Way::Pipe, most, redirection)?;
            if !printed.is_empty() {
                let printed = String::from_utf8_lossy(&printed);
                let wrong = format!("{}, {redirection}: printed {printed:?}", self.name);
                return Err(Difference::new(wrong));
            }
        }
        Ok(())
    }

    /// A program stops at a refused line though its input stays open. Whether it does at a line that
    /// is too long and has not ended is counted, not judged: 01 does not ask for it.
    fn open(&mut self) -> Result<(), Difference> {
        for input in [b"bad\n".as_slice(), b"5,6,7,4\nbad\n5,6,7,4\n"] {
            if !self.stops(input, LIMIT)? {
                let input = input.escape_ascii();
                let wrong = format!("{} did not stop at the bad line of {input}", self.name);
                return Err(Difference::new(wrong));
            }
        }
        let is_stopped = self.stops(&[b'1'; 200], OPEN_LIMIT)?;
        self.check.tally.count_open(is_stopped);
        Ok(())
    }

    /// Whether the program ends in time while its input stays open.
    fn stops(&mut self, input: &[u8], limit: Duration) -> Result<bool, Difference> {
        let wrong = |e: io::Error| Difference::new(format!("input that stays open: {e}"));
        let mut child = Command::new(self.program)
            .stdin(Stdio::piped())
            .stdout(Stdio::null())
            .spawn()
            .map_err(wrong)?;
        let mut stdin = child.stdin.take().expect("a pipe");
        let _ = stdin.write_all(input);
        let start = Instant::now();
        let mut is_stopped = false;
        while !is_stopped && start.elapsed() < limit {
            thread::sleep(Duration::from_millis(1));
            is_stopped = child.try_wait().map_err(wrong)?.is_some();
        }
        drop(stdin);
        let _ = child.kill();
        child.wait().map_err(wrong)?;
        Ok(is_stopped)
    }

    /// A shell's command line in which `$0` is the program.
    fn shell(&self, line: &str) -> Command {
        let mut command = Command::new("sh");
        command.args(["-c", line]).arg(self.program);
        command
    }

    /// It ends in time, without a message, by itself or by the signal that says that a pipe has no
    /// reader. Gives what it printed.
    fn ends(
        &mut self,
        command: &mut Command,
        input: &[u8],
        way: &Way,
        most_output: usize,
        what: &str,
    ) -> Result<Vec<u8>, Difference> {
        let wrong = |text: String| {
            let (name, bytes) = (self.name, input.len());
            Difference::new(format!("{name}, {what}, {bytes} bytes in: {text}"))
        };
        let ended = run_command(command, input, way, most_output).map_err(wrong)?;
        let tally = &mut self.check.tally;
        tally.endings += 1;
        tally.count_status(format!("output or input that fails, {}", ended.status));
        match ended.status.signal() {
            Some(SIGPIPE) => ended.silent(),
            _ => ended.quiet(),
        }
        .map_err(wrong)
    }
}
