//! A write of the programs that a signal interrupts: it is not tried again. The stream is a socket that is full and has a time limit; of such a
//! one a write fails with EINTR where the program is stopped and continued while it waits, without a handler of its own (signal(7)).

use std::fs::{self, File};
use std::io::{ErrorKind, Read, Write};
use std::os::fd::OwnedFd;
use std::os::unix::net::UnixStream;
use std::path::{Path, PathBuf};
use std::process::{Child, Command, Stdio};
use std::thread::sleep;
use std::time::{Duration, Instant};

/// A step that takes longer is a failure of its own. The socket's limit is longer still, so that no write ends by it.
const LIMIT: Duration = Duration::from_secs(10);
const LIMIT_OF_A_WRITE: Duration = Duration::from_secs(60);

/// A program asleep at so many looks in a row waits to write: nothing else that it does can wait, with its input in a file.
const LOOKS: u32 = 5;
const BETWEEN_LOOKS: Duration = Duration::from_millis(20);

/// The stream that is full; the other one is gathered, or standard output takes nothing.
#[derive(Clone, Copy)]
enum Full {
    Output,
    Errors,
    ErrorsBehindNoOutput,
}

/// What became of a run, the bytes escaped.
#[derive(Debug, PartialEq)]
struct Told {
    /// Whether the program ended before its stream was drained.
    gave_up: bool,
    arrived: String,
    other: String,
}

fn told(gave_up: bool, arrived: &[u8], other: &[u8]) -> Told {
    Told {
        gave_up,
        arrived: arrived.escape_ascii().to_string(),
        other: other.escape_ascii().to_string(),
    }
}

fn folder(program: &str) -> PathBuf {
    Path::new(env!("CARGO_MANIFEST_DIR")).join("../../crates").join(program)
}

/// Run A of document 01, its dump for watch and its calls for bench, as the input that stands beside the program's source.
fn run_a(program: &str) -> PathBuf {
    folder(program).join("stdin")
}

fn dump_a() -> Vec<u8> {
    fs::read(folder("bench").join("stdout")).unwrap()
}

/// No input at all, which either program refuses.
fn nothing() -> PathBuf {
    PathBuf::from("/dev/null")
}

/// A socket's end that nothing more goes into until the other end, from which so many bytes come first, is drained.
fn full_socket() -> (UnixStream, UnixStream, usize) {
    let (mut full, drain) = UnixStream::pair().unwrap();
    full.set_write_timeout(Some(LIMIT_OF_A_WRITE)).unwrap();
    drain.set_read_timeout(Some(LIMIT)).unwrap();
    full.set_nonblocking(true).unwrap();
    let mut filling = 0;
    loop {
        match full.write(&[0; 4096]) {
            Ok(size) => filling += size,
            Err(e) if e.kind() == ErrorKind::WouldBlock => break,
            Err(e) => panic!("the socket cannot be filled: {e}"),
        }
    }
    full.set_nonblocking(false).unwrap();
    (full, drain, filling)
}

/// A program that waits to write, and the other end of its full stream.
struct Run {
    program: Child,
    drain: UnixStream,
    filling: usize,
}

impl Run {
    fn of(program: &str, input: &Path, full: Full) -> Run {
        let path = folder(program).join("out").join(program);
        assert!(
            path.exists(),
            "no crates/{program}/out/{program}: `rt run < /dev/null` in crates/{program} builds it"
        );
        let (end, drain, filling) = full_socket();
        let end = Stdio::from(OwnedFd::from(end));
        let (output, errors) = match full {
            Full::Output => (end, Stdio::piped()),
            Full::Errors => (Stdio::piped(), end),
            Full::ErrorsBehindNoOutput => (File::create("/dev/full").unwrap().into(), end),
        };
        let mut command = Command::new(path);
        command.stdin(File::open(input).unwrap()).stdout(output).stderr(errors);
        let program = command.spawn().unwrap();
        let mut run = Run { program, drain, filling };
        assert!(
            !run.ends_or_sleeps(),
            "{} ended, though its stream is full",
            command.get_program().display()
        );
        run
    }

    fn ended(&mut self) -> bool {
        self.program.try_wait().unwrap().is_some()
    }

    /// The letter of the program's state, behind its name in brackets (proc(5)).
    fn state(&self) -> char {
        let stat = fs::read_to_string(format!("/proc/{}/stat", self.program.id())).unwrap();
        stat.rsplit(") ").next().unwrap().chars().next().unwrap()
    }

    /// Waits until the program has ended, which it tells, or sleeps.
    fn ends_or_sleeps(&mut self) -> bool {
        let begun = Instant::now();
        let mut asleep = 0;
        while asleep < LOOKS {
            if self.ended() {
                return true;
            }
            assert!(begun.elapsed() < LIMIT, "the program neither ends nor sleeps");
            asleep = if self.state() == 'S' { asleep + 1 } else { 0 };
            sleep(BETWEEN_LOOKS);
        }
        false
    }

    /// By the shell, as std has no call for a signal but the one that kills.
    fn signal(&self, name: &str) {
        let line = format!("kill -s {name} {}", self.program.id());
        assert!(
            Command::new("sh").args(["-c", &line]).status().unwrap().success(),
            "no signal {name} could be sent"
        );
    }

    fn is_stopped_and_continued(&mut self) {
        self.signal("STOP");
        let begun = Instant::now();
        while self.state() != 'T' {
            assert!(begun.elapsed() < LIMIT, "the program does not stop");
            sleep(BETWEEN_LOOKS);
        }
        self.signal("CONT");
    }

    /// Drains the stream, so that whatever the program still writes comes through, and gathers all.
    fn drained(&mut self) -> Told {
        let gave_up = self.ends_or_sleeps();
        let mut bytes = Vec::new();
        self.drain.read_to_end(&mut bytes).expect("the drained program does not end");
        assert!(self.program.wait().unwrap().success());
        let mut other = Vec::new();
        if let Some(output) = &mut self.program.stdout {
            output.read_to_end(&mut other).unwrap();
        }
        if let Some(errors) = &mut self.program.stderr {
            errors.read_to_end(&mut other).unwrap();
        }
        told(gave_up, &bytes[self.filling..], &other)
    }
}

/// A failed test leaves no program behind.
impl Drop for Run {
    fn drop(&mut self) {
        let _ = self.program.kill();
        let _ = self.program.wait();
    }
}

fn interrupted(program: &str, input: &Path, full: Full) -> Told {
    let mut run = Run::of(program, input, full);
    run.is_stopped_and_continued();
    run.drained()
}

fn undisturbed(program: &str, input: &Path, full: Full) -> Told {
    Run::of(program, input, full).drained()
}

/// Undisturbed the program writes its answer into the stream; interrupted it writes nothing there, and complains on the other one.
fn gives_up(program: &str, input: &Path, full: Full, answer: &[u8], complaint: &[u8]) {
    assert_eq!(undisturbed(program, input, full), told(false, answer, b""));
    assert_eq!(interrupted(program, input, full), told(true, b"", complaint));
}

const WATCH_COMPLAINT: &[u8] = b"watch: cannot write standard output\n";
const BENCH_COMPLAINT: &[u8] = b"bench: cannot write standard output\n";

#[test]
fn a_verdict_of_watch() {
    gives_up("watch", &run_a("watch"), Full::Output, b"clean 17 0\n", WATCH_COMPLAINT);
}

#[test]
fn a_refusal_of_watch() {
    gives_up("watch", &nothing(), Full::Output, b"refused 1\n", WATCH_COMPLAINT);
}

#[test]
fn a_dump_of_bench() {
    gives_up("bench", &run_a("bench"), Full::Output, &dump_a(), BENCH_COMPLAINT);
}

#[test]
fn a_refusal_of_bench() {
    gives_up("bench", &nothing(), Full::Errors, b"refused 1\n", b"");
}

/// A complaint has no other stream to be told on.
#[test]
fn a_complaint_of_either() {
    gives_up("watch", &run_a("watch"), Full::ErrorsBehindNoOutput, WATCH_COMPLAINT, b"");
    gives_up("bench", &run_a("bench"), Full::ErrorsBehindNoOutput, BENCH_COMPLAINT, b"");
}
