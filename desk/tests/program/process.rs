//! The program in a process of its own.

use std::io::Write;
use std::process::{Child, Command, Output, Stdio};

/// The program.
pub const DESK: &str = env!("CARGO_BIN_EXE_desk");

/// Starts a process, its input and outputs pipes.
pub fn spawn(command: &mut Command) -> Child {
    command.stdin(Stdio::piped()).stdout(Stdio::piped());
    command.stderr(Stdio::piped());
    command.spawn().expect("it starts")
}

/// Feeds lines to a process, and waits for its end.
pub fn feed(mut child: Child, input: &str) -> Output {
    let mut pipe = child.stdin.take().expect("a pipe");
    // A program that ends before it has read all closes the pipe.
    let _ = pipe.write_all(input.as_bytes());
    drop(pipe);
    child.wait_with_output().expect("it ends")
}

/// The program with these arguments.
pub fn start(arguments: &[&str]) -> Child {
    spawn(Command::new(DESK).args(arguments))
}

/// The program with these arguments and this input, to its end.
pub fn run(arguments: &[&str], input: &str) -> Output {
    feed(start(arguments), input)
}

/// What a program printed.
pub fn printed(output: &Output) -> String {
    String::from_utf8(output.stdout.clone()).expect("a text")
}
