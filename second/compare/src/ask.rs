//! Putting an input to the command.

use std::io::{Read, Write};
use std::process::{Command, Stdio};
use std::sync::mpsc;
use std::thread;
use std::time::Duration;

/// A command that has not answered after this time is ended.
const LONGEST_WAIT: Duration = Duration::from_secs(120);

/// Starts the command, gives it the input and answers its standard output.
///
/// An `Err` says why there is no output. The exit code is not looked at, since
/// document 01 says nothing of it; an end by a signal is an `Err`.
pub fn ask(command: &[String], input: &[u8]) -> Result<Vec<u8>, String> {
    let (program, arguments) = command.split_first().ok_or("no command")?;
    let mut child = Command::new(program)
        .args(arguments)
        .stdin(Stdio::piped())
        .stdout(Stdio::piped())
        .spawn()
        .map_err(|error| format!("the command cannot be started: {error}"))?;
    let (Some(mut stdin), Some(mut stdout)) = (child.stdin.take(), child.stdout.take()) else {
        return Err("the command has no standard input or output".to_string());
    };

    // Writing and reading go on at the same time, so that neither side can
    // wait for the other. A command may end before it has read everything.
    let to_write = input.to_vec();
    thread::spawn(move || stdin.write_all(&to_write));
    let (sender, receiver) = mpsc::channel();
    thread::spawn(move || {
        let mut output = Vec::new();
        let read = stdout.read_to_end(&mut output);
        sender.send(read.map(|_| output))
    });

    let answer = receiver.recv_timeout(LONGEST_WAIT);
    if answer.is_err() {
        child.kill().ok();
    }
    let status = child
        .wait()
        .map_err(|error| format!("the command cannot be waited for: {error}"))?;
    let output = answer
        .map_err(|_| format!("the command did not answer in {LONGEST_WAIT:?}"))?
        .map_err(|error| format!("the output cannot be read: {error}"))?;
    if status.code().is_none() {
        return Err(format!("the command was ended: {status}"));
    }
    Ok(output)
}
