//! How long the replay program is waited for, and what it must do soon.

use std::fs::File;
use std::io::{self, Read, Write};
use std::path::Path;
use std::process::{Child, ChildStdin, ChildStdout, Command, ExitStatus, Stdio};
use std::sync::mpsc::channel;
use std::thread::{sleep, spawn};
use std::time::{Duration, Instant};

/// Time for what must be soon.
const SOON: Duration = Duration::from_secs(10);

/// Time between two looks at whether it has ended.
const LOOK: Duration = Duration::from_millis(1);

/// Starts it, with its input and its output at hand.
pub fn piped(program: &Path) -> io::Result<(Child, ChildStdin, ChildStdout)> {
    let mut child = Command::new(program)
        .stdin(Stdio::piped())
        .stdout(Stdio::piped())
        .spawn()?;
    let input = child.stdin.take().expect("a pipe");
    let output = child.stdout.take().expect("a pipe");
    Ok((child, input, output))
}

/// How it ended; none if it did not within that time, and was stopped.
pub fn ended(child: &mut Child, within: Duration) -> io::Result<Option<ExitStatus>> {
    let start = Instant::now();
    while start.elapsed() < within {
        if let Some(status) = child.try_wait()? {
            return Ok(Some(status));
        }
        sleep(LOOK);
    }
    child.kill()?;
    child.wait()?;
    Ok(None)
}

/// Whether it ends by itself with an input that has no end and an output that takes nothing.
pub fn ends_unheard(program: &Path) -> io::Result<bool> {
    let mut child = Command::new(program)
        .stdin(File::open("/dev/zero")?)
        .stdout(File::create("/dev/full")?)
        .stderr(Stdio::null())
        .spawn()?;
    Ok(ended(&mut child, SOON)?.is_some())
}

/// Whether the refusal of an empty block is told while the input goes on.
pub fn tells_at_once(program: &Path) -> io::Result<bool> {
    let (mut child, mut input, mut output) = piped(program)?;
    let (tell, told) = channel();
    spawn(move || {
        let mut record = [0; 10];
        if output.read_exact(&mut record).is_ok() {
            // Nobody listens any more if it comes too late.
            let _ = tell.send(record);
        }
        // What comes behind it must find a reader.
        io::copy(&mut output, &mut io::sink())
    });
    // One that has ended already tells nothing.
    let _ = input.write_all(&[0, 0]);
    let record = told.recv_timeout(SOON);
    drop(input);
    ended(&mut child, SOON)?;
    Ok(record == Ok(*b"r\0\0\0\0\0\0\0\x01\x01"))
}
