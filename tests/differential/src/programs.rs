//! The programs that are compared with the interpreter.

use std::io::{self, Read, Write};
use std::process::{Command, Stdio};
use std::sync::mpsc;
use std::thread;
use std::time::Duration;

/// How long a program may take for one input.
const PATIENCE: Duration = Duration::from_secs(120);

/// What a command, given as to a shell, writes on this input, at most `limit` bytes of it; it is ended if it takes too long.
pub fn output(command: &str, input: Vec<u8>, limit: usize) -> io::Result<Vec<u8>> {
    let mut child =
        Command::new("sh").args(["-c", &format!("exec {command}")]).stdin(Stdio::piped()).stdout(Stdio::piped()).spawn()?;
    let (Some(mut to), Some(from)) = (child.stdin.take(), child.stdout.take()) else {
        return Err(io::Error::other("no pipes"));
    };
    // A program that ends early does not read all of it.
    let writer = thread::spawn(move || _ = to.write_all(&input));
    let (sender, receiver) = mpsc::channel();
    let reader = thread::spawn(move || {
        let mut given = Vec::new();
        let read = from.take(limit as u64).read_to_end(&mut given);
        _ = sender.send(());
        read.map(|_| given)
    });
    if receiver.recv_timeout(PATIENCE).is_err() {
        child.kill()?;
    }
    child.wait()?;
    _ = writer.join();
    reader.join().unwrap_or_else(|_| Err(io::Error::other("the reading thread ended")))
}
