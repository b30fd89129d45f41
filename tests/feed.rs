//! Runs a command with a socket as its standard input: hands over what comes on
//! its own, and then makes each read fail. It ends with the command's status.
//!
//!     rustc --edition 2024 -O -o target/tests/feed tests/feed.rs
//!     target/tests/feed COMMAND.. <LOG

use std::io::{self, Read, Write};
use std::os::fd::OwnedFd;
use std::os::unix::net::UnixStream;
use std::process::{Command, ExitCode, ExitStatus};
use std::time::Duration;

fn run(command: &[String]) -> io::Result<ExitStatus> {
    let mut log = vec![];
    io::stdin().read_to_end(&mut log)?;
    let (mut to, from) = UnixStream::pair()?;
    let mut child = Command::new(&command[0])
        .args(&command[1..])
        .stdin(OwnedFd::from(from.try_clone()?))
        .spawn()?;
    let (last, first) = log.split_last().ok_or(io::ErrorKind::UnexpectedEof)?;
    // A command that reads no more must not hold this up.
    to.set_write_timeout(Some(Duration::from_secs(10)))?;
    to.write_all(first)?;
    // The command has the same socket. A read that waits ends with the last byte, and the next one fails.
    from.set_nonblocking(true)?;
    to.write_all(&[*last])?;
    child.wait()
}

fn main() -> ExitCode {
    let command: Vec<String> = std::env::args().skip(1).collect();
    if command.is_empty() {
        eprintln!("usage: feed COMMAND.. <LOG");
        return ExitCode::from(2);
    }
    match run(&command) {
        Ok(status) => ExitCode::from(status.code().map_or(2, |code| code as u8)),
        Err(error) => {
            eprintln!("feed: {error}");
            ExitCode::from(2)
        }
    }
}
