//! The list program run as a process: the case on standard input, the answer on standard output.

use crate::Subject;
use std::io::Write;
use std::process::{Command, Stdio};

/// A program that reads one tile and prints its list.
pub struct Process {
    command: Vec<String>,
}

impl Process {
    /// The program and its arguments.
    pub fn new(command: Vec<String>) -> Self {
        assert!(!command.is_empty(), "a program is needed");
        Self { command }
    }

    fn run(&self, input: &[u8]) -> std::io::Result<Vec<u8>> {
        let mut child = Command::new(&self.command[0])
            .args(&self.command[1..])
            .stdin(Stdio::piped())
            .stdout(Stdio::piped())
            .spawn()?;
        let mut pipe = child.stdin.take();
        let output = std::thread::scope(|scope| {
            scope.spawn(move || {
                // A program may refuse before it has read everything.
                if let Some(pipe) = pipe.as_mut() {
                    let _ = pipe.write_all(input);
                }
            });
            child.wait_with_output()
        })?;
        match output.status.code() {
            Some(_) => Ok(output.stdout),
            None => Ok(format!("ended by {}", output.status).into_bytes()),
        }
    }
}

impl Subject for Process {
    fn name(&self) -> String {
        self.command.join(" ")
    }

    fn list_program(&mut self, input: &[u8]) -> Option<Vec<u8>> {
        match self.run(input) {
            Ok(output) => Some(output),
            Err(error) => panic!("{}: {error}", self.command[0]),
        }
    }
}
