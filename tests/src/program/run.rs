//! One run of the program.

use crate::sheets::{describe, difference};
use std::fs::{self, File};
use std::io::{self, ErrorKind, Read, Seek, Write};
use std::os::fd::OwnedFd;
use std::os::unix::net::UnixDatagram;
use std::os::unix::process::ExitStatusExt;
use std::process::{Child, ChildStdin, Command, ExitStatus, Stdio};
use std::sync::atomic::{AtomicUsize, Ordering};
use std::thread;
use std::time::Duration;

/// The program takes at most so many bytes.
pub const TAKEN: usize = 8_250;

/// What the environment names in place of the program, with words for it.
const VARIABLE: &str = "UNMIX";
const PROGRAM: &str = concat!(env!("CARGO_MANIFEST_DIR"), "/../target/bin/unmix");
/// So often the program is asked whether it has ended, and its input whether it takes a piece. The
/// asks are counted and no clock is read: on a machine that stands still for a while, so do they.
const ASKS: usize = 200_000;
const BETWEEN_ASKS: Duration = Duration::from_micros(100);
const SIGPIPE: i32 = 13;

#[derive(Debug)]
pub enum Input {
    /// Written piece by piece into a pipe, which may be left open until the program has ended.
    Pipe {
        piece: usize,
        left_open: bool,
    },
    /// Sent so that each read gets one piece.
    Datagrams {
        piece: usize,
    },
    File,
    Nothing,
    Closed,
    Directory,
}

#[derive(Debug)]
pub enum Output {
    Caught,
    Full,
    /// A pipe that nobody reads, with SIGPIPE and without it.
    NoReader,
    NoReaderNorSignal,
    Closed,
}

pub struct Run {
    pub sheet: Vec<u8>,
    pub input: Input,
    pub output: Output,
    /// What must be printed. If nothing is said of it, the program must just end.
    pub text: Option<String>,
}

/// The program with all of its input.
struct Started {
    child: Child,
    /// What the input comes through, if it is left open.
    pipe: Option<ChildStdin>,
    /// What the input comes from, if it is a file.
    file: Option<File>,
}

struct Ending {
    /// None if the program does not end.
    status: Option<ExitStatus>,
    text: Vec<u8>,
    /// How many bytes of the input were taken, if it is a file.
    taken: Option<u64>,
}

impl Run {
    pub fn compare(&self) -> Result<(), String> {
        let ending = self.ending().map_err(|error| format!("the program cannot be run: {error}"));
        ending.and_then(|ending| self.judge(&ending)).map_err(|fault| {
            describe(&self.sheet, &format!("{:?}, {:?}: {fault}", self.input, self.output))
        })
    }

    fn judge(&self, Ending { status, text, taken }: &Ending) -> Result<(), String> {
        let status = status.ok_or("the program does not end")?;
        if let Some(taken) = taken.filter(|&taken| taken > TAKEN as u64) {
            return Err(format!("{taken} bytes were taken"));
        }
        match self.text.as_ref().map(String::as_bytes) {
            Some(expected) if text != expected => Err(difference(text, expected)),
            Some(_) if !status.success() => Err(status.to_string()),
            None if status.signal().is_some_and(|number| number != SIGPIPE) => {
                Err(status.to_string())
            }
            _ => Ok(()),
        }
    }

    fn ending(&self) -> io::Result<Ending> {
        let Started { mut child, pipe, file } = self.start()?;
        let status = end(&mut child)?;
        drop(pipe);
        let mut text = vec![];
        if let Some(mut output) = child.stdout.take() {
            output.read_to_end(&mut text)?;
        }
        let taken = file.map(|mut file| file.stream_position()).transpose()?;
        Ok(Ending { status, text, taken })
    }

    fn start(&self) -> io::Result<Started> {
        let (mut pipe, mut file) = (None, None);
        let child = match self.input {
            Input::Pipe { piece, left_open } => {
                let (child, open) = self.through_a_pipe(piece)?;
                pipe = left_open.then_some(open);
                child
            }
            Input::Datagrams { piece } => self.by_datagrams(piece)?,
            Input::File => {
                let sheet = file_of(&self.sheet)?;
                file = Some(sheet.try_clone()?);
                self.spawn(sheet)?
            }
            Input::Nothing | Input::Closed => self.spawn(Stdio::null())?,
            Input::Directory => self.spawn(File::open("/")?)?,
        };
        Ok(Started { child, pipe, file })
    }

    fn through_a_pipe(&self, piece: usize) -> io::Result<(Child, ChildStdin)> {
        let mut child = self.spawn(Stdio::piped())?;
        let mut pipe = child.stdin.take().unwrap();
        for bytes in self.sheet.chunks(piece) {
            if pipe.write_all(bytes).is_err() {
                break;
            }
            thread::yield_now();
        }
        Ok((child, pipe))
    }

    /// A read that gets an empty one sees the end of its input.
    fn by_datagrams(&self, piece: usize) -> io::Result<Child> {
        let (here, there) = UnixDatagram::pair()?;
        here.set_nonblocking(true)?;
        let child = self.spawn(OwnedFd::from(there))?;
        for bytes in self.sheet.chunks(piece).chain([&[][..]]) {
            if patiently(|| sent(&here, bytes))? != Some(true) {
                break;
            }
        }
        Ok(child)
    }

    /// Nothing here holds the other end of the input afterwards.
    fn spawn(&self, input: impl Into<Stdio>) -> io::Result<Child> {
        let output = match self.output {
            Output::Caught => Stdio::piped(),
            Output::Full => File::options().write(true).open("/dev/full")?.into(),
            Output::NoReader | Output::NoReaderNorSignal => io::pipe()?.1.into(),
            Output::Closed => Stdio::null(),
        };
        self.command().stdin(input).stdout(output).spawn()
    }

    /// A shell does what cannot be asked for otherwise.
    fn command(&self) -> Command {
        let shell = match (&self.input, &self.output) {
            (Input::Closed, _) => Some(r#"exec "$@" <&-"#),
            (_, Output::Closed) => Some(r#"exec "$@" >&-"#),
            (_, Output::NoReaderNorSignal) => Some(r#"trap "" PIPE; exec "$@""#),
            _ => None,
        };
        let before = shell.iter().flat_map(|script| ["sh", "-c", script, "sh"]);
        let mut words = before.map(String::from).chain(program());
        let mut command = Command::new(words.next().unwrap());
        command.args(words);
        command
    }
}

fn program() -> Vec<String> {
    match std::env::var(VARIABLE) {
        Ok(words) if !words.is_empty() => words.split_whitespace().map(String::from).collect(),
        _ => vec![PROGRAM.into()],
    }
}

/// Waits for the program's end, but not for ever.
fn end(child: &mut Child) -> io::Result<Option<ExitStatus>> {
    let status = patiently(|| child.try_wait())?;
    if status.is_none() {
        child.kill()?;
        child.wait()?;
    }
    Ok(status)
}

/// Whether the piece was sent, which it cannot be to a program that has ended. None if it has to wait.
fn sent(socket: &UnixDatagram, piece: &[u8]) -> io::Result<Option<bool>> {
    match socket.send(piece).map_err(|error| (error.kind(), error)) {
        Ok(_) => Ok(Some(true)),
        Err((ErrorKind::WouldBlock | ErrorKind::Interrupted, _)) => Ok(None),
        Err((ErrorKind::ConnectionRefused | ErrorKind::NotConnected, _)) => Ok(Some(false)),
        Err((_, error)) => Err(error),
    }
}

/// What asking gives at last, or None if it never does.
fn patiently<T>(mut ask: impl FnMut() -> io::Result<Option<T>>) -> io::Result<Option<T>> {
    for _ in 0..ASKS {
        if let Some(answer) = ask()? {
            return Ok(Some(answer));
        }
        thread::sleep(BETWEEN_ASKS);
    }
    Ok(None)
}

/// A file that has no name any more.
fn file_of(bytes: &[u8]) -> io::Result<File> {
    static FILES: AtomicUsize = AtomicUsize::new(0);
    let number = FILES.fetch_add(1, Ordering::Relaxed);
    let path = std::env::temp_dir().join(format!("sheet-{}-{number}", std::process::id()));
    fs::write(&path, bytes)?;
    let file = File::open(&path)?;
    fs::remove_file(&path)?;
    Ok(file)
}
