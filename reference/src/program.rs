//! Runs a program on an input.

use std::io::{self, Read, Write};
use std::process::{Child, Command, ExitStatus, Stdio};
use std::thread::{self, JoinHandle};

#[derive(Clone, Debug, PartialEq, Eq)]
pub struct Program {
    pub path: String,
    pub arguments: Vec<String>,
}

/// A run under way.
pub struct Run {
    child: Child,
    writer: JoinHandle<Option<()>>,
    reader: JoinHandle<io::Result<Vec<u8>>>,
}

impl Program {
    /// The program with one argument more.
    pub fn with(&self, argument: &str) -> Program {
        let arguments = [&self.arguments[..], &[argument.to_string()]].concat();
        Program { path: self.path.clone(), arguments }
    }

    pub fn start(&self, input: Vec<u8>) -> io::Result<Run> {
        let mut child = Command::new(&self.path)
            .args(&self.arguments)
            .stdin(Stdio::piped())
            .stdout(Stdio::piped())
            .spawn()?;
        let mut to_child = child.stdin.take().expect("standard input is piped");
        let mut from_child = child.stdout.take().expect("standard output is piped");
        // A program that ends early breaks the pipe; its short output tells.
        let writer = thread::spawn(move || to_child.write_all(&input).ok());
        let reader = thread::spawn(move || {
            let mut output = Vec::new();
            from_child.read_to_end(&mut output).map(|_| output)
        });
        Ok(Run { child, writer, reader })
    }
}

impl Run {
    /// All that the program writes until it ends, and how it ends.
    pub fn output(mut self) -> io::Result<(Vec<u8>, ExitStatus)> {
        let output = self.reader.join().expect("the reader does not panic")?;
        self.writer.join().expect("the writer does not panic");
        let status = self.child.wait()?;
        Ok((output, status))
    }
}
