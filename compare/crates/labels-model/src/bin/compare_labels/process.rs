//! Runs a program, with its input handed over in several ways and its output taken or not.

use std::ffi::{OsStr, c_int, c_ulong};
use std::fs::{self, File};
use std::io::{self, Read, Write};
use std::os::fd::{AsRawFd, OwnedFd};
use std::os::unix::net::UnixStream;
use std::path::{Path, PathBuf};
use std::process::{Child, ChildStdin, Command, ExitStatus, Stdio};
use std::sync::atomic::{AtomicU64, Ordering};
use std::sync::mpsc::{Receiver, RecvTimeoutError, channel};
use std::thread;
use std::time::{Duration, Instant};

/// A run that takes longer has not ended.
pub const LIMIT: Duration = Duration::from_secs(120);

/// How long a chunk may wait for the program to take it.
const PATIENCE: Duration = Duration::from_millis(20);

/// How the program is handed its input.
#[derive(Clone, Debug, PartialEq, Eq)]
pub enum Way {
    /// Through a pipe, as fast as it takes it.
    Pipe,
    /// As a file.
    File,
    /// Through a pipe in chunks of these sizes, again and again; the next is written when the last
    /// was taken, so that the program's reads are as short.
    Chunks(Vec<usize>),
    /// Through a stream that cannot be read further after its last byte: no input of many bytes.
    Broken,
}

/// What a run left.
pub struct Ended {
    pub stdout: Vec<u8>,
    pub stderr: Vec<u8>,
    pub status: ExitStatus,
}

impl Ended {
    /// The output of a run that ended by itself, with status 0 and nothing on standard error.
    pub fn quiet(self) -> Result<Vec<u8>, String> {
        if self.status.code() != Some(0) {
            return Err(format!("the program ended with {}", self.status));
        }
        self.silent()
    }

    /// The output of a run with nothing on standard error.
    pub fn silent(self) -> Result<Vec<u8>, String> {
        if self.stderr.is_empty() {
            return Ok(self.stdout);
        }
        let said = String::from_utf8_lossy(&self.stderr);
        Err(format!("the program wrote on standard error: {said}"))
    }
}

/// Runs a program to its end. An error is a run that cannot be started or does not end.
pub fn run(program: &Path, input: &[u8], way: &Way) -> Result<Ended, String> {
    let mut command = Command::new(program);
    command.stdout(Stdio::piped());
    run_command(&mut command, input, way, usize::MAX)
}

/// Runs a command to its end. After so many bytes its output is closed; it may have been set to go
/// elsewhere.
pub fn run_command(
    command: &mut Command,
    input: &[u8],
    way: &Way,
    most_output: usize,
) -> Result<Ended, String> {
    let file = match way {
        Way::File => Some(InputFile::new(input).map_err(|e| format!("a file for the input: {e}"))?),
        _ => None,
    };
    command.stdin(match &file {
        Some(file) => Stdio::from(File::open(&file.path).map_err(|e| e.to_string())?),
        None if *way == Way::Broken => broken(input).map_err(|e| format!("a stream: {e}"))?,
        None => Stdio::piped(),
    });
    command.stderr(Stdio::piped());
    let name = command.get_program().to_owned();
    let mut child = command
        .spawn()
        .map_err(|e| format!("{} cannot be started: {e}", name.display()))?;
    let stdin = child.stdin.take();
    let stdout = collect(child.stdout.take(), most_output);
    let stderr = collect(child.stderr.take(), usize::MAX);
    let deadline = Instant::now() + LIMIT;
    let ended = thread::scope(|scope| {
        scope.spawn(|| stdin.map(|stdin| hand_over(stdin, input, way)));
        let ended = wait(&mut child, &stdout, &stderr, deadline);
        if ended.is_none() {
            // The writer's pipe breaks then, and its thread ends.
            let _ = child.kill();
            let _ = child.wait();
        }
        ended
    });
    ended.ok_or_else(|| {
        let seconds = LIMIT.as_secs();
        format!("{} did not end within {seconds} seconds", name.display())
    })
}

fn wait(
    child: &mut Child,
    stdout: &Receiver<Vec<u8>>,
    stderr: &Receiver<Vec<u8>>,
    deadline: Instant,
) -> Option<Ended> {
    let stdout = receive(stdout, deadline)?;
    let stderr = receive(stderr, deadline)?;
    loop {
        if let Ok(Some(status)) = child.try_wait() {
            return Some(Ended {
                stdout,
                stderr,
                status,
            });
        }
        if Instant::now() > deadline {
            return None;
        }
        thread::sleep(Duration::from_micros(100));
    }
}

/// What a stream gives until it ends or has given so many bytes; nothing for a stream that goes
/// elsewhere. A thread reads it.
fn collect<R: Read + Send + 'static>(stream: Option<R>, most: usize) -> Receiver<Vec<u8>> {
    let (sender, receiver) = channel();
    if let Some(stream) = stream {
        thread::spawn(move || {
            let mut bytes = Vec::new();
            let _ = stream.take(most as u64).read_to_end(&mut bytes);
            // The receiver is gone if the run was given up.
            let _ = sender.send(bytes);
        });
    }
    receiver
}

fn receive(stream: &Receiver<Vec<u8>>, deadline: Instant) -> Option<Vec<u8>> {
    let left = deadline.saturating_duration_since(Instant::now());
    match stream.recv_timeout(left) {
        Ok(bytes) => Some(bytes),
        Err(RecvTimeoutError::Disconnected) => Some(Vec::new()),
        Err(RecvTimeoutError::Timeout) => None,
    }
}

/// A program that has stopped at a refused line leaves the rest of its input: the pipe is broken.
fn hand_over(mut stdin: ChildStdin, mut input: &[u8], way: &Way) {
    let Way::Chunks(sizes) = way else {
        let _ = stdin.write_all(input);
        return;
    };
    for size in sizes.iter().cycle() {
        let (chunk, rest) = input.split_at((*size).min(input.len()));
        if chunk.is_empty() || stdin.write_all(chunk).is_err() {
            return;
        }
        input = rest;
        let start = Instant::now();
        while waiting_bytes(&stdin) > 0 && start.elapsed() < PATIENCE {
            thread::yield_now();
        }
    }
}

/// A stream with an input that fails behind it: its other end was closed with a byte unread, which
/// is no end of input.
fn broken(input: &[u8]) -> io::Result<Stdio> {
    let (mut ours, mut theirs) = UnixStream::pair()?;
    theirs.write_all(b"unread")?;
    ours.write_all(input)?;
    Ok(Stdio::from(OwnedFd::from(theirs)))
}

/// The bytes that were written to a pipe and not yet read.
fn waiting_bytes(pipe: &ChildStdin) -> c_int {
    const FIONREAD: c_ulong = 0x541B;
    unsafe extern "C" {
        fn ioctl(fd: c_int, request: c_ulong, ...) -> c_int;
    }
    let mut count: c_int = 0;
    // SAFETY: the descriptor is open, and the request writes one int.
    let answer = unsafe { ioctl(pipe.as_raw_fd(), FIONREAD, &raw mut count) };
    if answer == 0 { count } else { 0 }
}

/// A file with an input, removed at the end of its use.
pub struct InputFile {
    pub path: PathBuf,
}

impl InputFile {
    pub fn new(input: &[u8]) -> io::Result<InputFile> {
        static NEXT: AtomicU64 = AtomicU64::new(0);
        let number = NEXT.fetch_add(1, Ordering::Relaxed);
        let name = format!("compare_labels.{}.{number}", std::process::id());
        let file = InputFile {
            path: std::env::temp_dir().join(name),
        };
        fs::write(&file.path, input)?;
        Ok(file)
    }
}

impl AsRef<OsStr> for InputFile {
    fn as_ref(&self) -> &OsStr {
        self.path.as_os_str()
    }
}

impl Drop for InputFile {
    fn drop(&mut self) {
        let _ = fs::remove_file(&self.path);
    }
}
