//! Running a program on a text.

use std::io::{self, ErrorKind, Read, Write};
use std::path::Path;
use std::process::{ChildStdin, ChildStdout, Command, Stdio};
use std::sync::mpsc;
use std::thread;
use std::time::Duration;

/// How long a program may take for one text before it is stopped.
const PATIENCE: Duration = Duration::from_secs(60);

/// What a program printed, and its exit status if it ended by itself.
#[derive(Clone, Debug, PartialEq, Eq)]
pub struct Run {
    pub output: Vec<u8>,
    pub status: Option<i32>,
}

/// A program by what it does with a text.
pub type Program<'a> = dyn Fn(&[u8]) -> io::Result<Run> + Sync + 'a;

/// Runs the program at the path with the text as its standard input. Its standard error is passed on.
pub fn run(path: &Path, text: &[u8]) -> io::Result<Run> {
    let mut child = Command::new(path).stdin(Stdio::piped()).stdout(Stdio::piped()).spawn()?;
    let input = child.stdin.take().expect("standard input is piped");
    let output = child.stdout.take().expect("standard output is piped");
    let (sender, receiver) = mpsc::channel();
    thread::scope(|scope| {
        let writer = scope.spawn(move || write_whole(input, text));
        scope.spawn(move || sender.send(read_whole(output)));
        let printed = receiver.recv_timeout(PATIENCE);
        if printed.is_err() {
            child.kill()?;
        }
        let status = child.wait()?.code();
        writer.join().expect("writing does not panic")?;
        let output = printed.map_err(|_| io::Error::new(ErrorKind::TimedOut, "the program did not end"))??;
        Ok(Run { output, status })
    })
}

/// Writes the text as far as the program reads it.
fn write_whole(mut input: ChildStdin, text: &[u8]) -> io::Result<()> {
    match input.write_all(text) {
        Err(error) if error.kind() == ErrorKind::BrokenPipe => Ok(()),
        written => written,
    }
}

fn read_whole(mut output: ChildStdout) -> io::Result<Vec<u8>> {
    let mut printed = Vec::new();
    output.read_to_end(&mut printed)?;
    Ok(printed)
}
