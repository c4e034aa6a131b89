//! Runs of the replay program: how one begins and how it ends.
#![allow(dead_code, reason = "each test file uses a part")]

use std::ffi::{c_int, c_ulong};
use std::fs::{self, File};
use std::io::Read;
use std::os::fd::AsRawFd;
use std::process::{Child, ChildStdout, Command, ExitStatus, Stdio};
use std::sync::mpsc;
use std::thread::{self, JoinHandle};
use std::time::{Duration, Instant};
use streams::Stored;

pub const DEADLINE: Duration = Duration::from_secs(10);
pub const MOMENT: Duration = Duration::from_micros(50);

extern "C" {
    fn ioctl(descriptor: c_int, request: c_ulong, ...) -> c_int;
}

/// How a run ended, and what it told on standard error.
pub struct Ended {
    pub status: ExitStatus,
    pub told: String,
}

impl Ended {
    /// Sees that the program told why a read or a write failed, and nothing else, and then ended well.
    pub fn told_of(&self, what: &str, why: &str, name: &str) {
        assert!(self.status.success(), "{name}: {}", self.status);
        assert_eq!(self.told, format!("standard {what}: {why}\n"), "{name}");
    }
}

pub fn program(input: impl Into<Stdio>, output: impl Into<Stdio>) -> Child {
    let program = streams::replay_program().unwrap_or_else(|missing| panic!("{missing}"));
    spawned(Command::new(program), input, output)
}

/// As a program that was started with the signal of a closed pipe ignored.
pub fn deaf_program(input: impl Into<Stdio>, output: impl Into<Stdio>) -> Child {
    let program = streams::replay_program().unwrap_or_else(|missing| panic!("{missing}"));
    let mut shell = Command::new("sh");
    shell.args(["-c", "trap '' PIPE; exec \"$0\""]).arg(program);
    spawned(shell, input, output)
}

fn spawned(mut command: Command, input: impl Into<Stdio>, output: impl Into<Stdio>) -> Child {
    command.stdin(input).stdout(output).stderr(Stdio::piped());
    command.spawn().unwrap()
}

/// Waits until the program ends by itself.
pub fn ended(mut child: Child, name: &str) -> Ended {
    let start = Instant::now();
    while start.elapsed() < DEADLINE {
        if let Some(status) = child.try_wait().unwrap() {
            let mut told = String::new();
            let errors = child.stderr.as_mut();
            errors.unwrap().read_to_string(&mut told).unwrap();
            return Ended { status, told };
        }
        thread::sleep(MOMENT);
    }
    child.kill().unwrap();
    child.wait().unwrap();
    panic!("{name}: replay does not end");
}

/// All that is written, read while the program runs.
pub fn all_of(mut output: ChildStdout) -> JoinHandle<Vec<u8>> {
    thread::spawn(move || {
        let mut records = vec![];
        output.read_to_end(&mut records).unwrap();
        records
    })
}

/// The first refusal, as soon as it is there; behind it the output is closed.
pub fn first_refusal(mut output: ChildStdout) -> [u8; 10] {
    let (sender, receiver) = mpsc::channel();
    thread::spawn(move || {
        let mut record = [0; 10];
        let got = output.read_exact(&mut record).map(|()| record);
        drop(output);
        sender.send(got)
    });
    let told = receiver.recv_timeout(DEADLINE);
    told.expect("replay does not wait for more").unwrap()
}

pub fn file(stored: &Stored) -> File {
    File::open(stored.stream_file()).unwrap()
}

pub fn records_of(stored: &Stored) -> Vec<u8> {
    fs::read(stored.records_file()).unwrap()
}

/// One of the requests that take or give one number.
pub fn control(file: &impl AsRawFd, request: c_ulong, number: &mut c_int) {
    // SAFETY: such a request reads or writes one int, and nothing else.
    let done = unsafe { ioctl(file.as_raw_fd(), request, number) };
    assert_eq!(done, 0);
}
