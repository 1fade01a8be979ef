//! A program that reads requests from its standard input and answers in lines.

use std::io::{self, BufRead, BufReader, Write};
use std::process::{Child, ChildStdin, ChildStdout, Command, Stdio};
use std::thread;

/// More than this a program's input may not take at once.
const PIPE: usize = 65_536;

/// The program, asked request by request.
pub struct Program {
    name: &'static str,
    child: Child,
    lines: BufReader<ChildStdout>,
}

impl Program {
    /// Starts a command; `name` is the comparer that reports how it ends.
    pub fn start(name: &'static str, words: &[&str]) -> io::Result<Program> {
        let mut command = Command::new(words[0]);
        let mut child = command.args(&words[1..]).stdin(Stdio::piped()).stdout(Stdio::piped()).spawn()?;
        let lines = BufReader::new(child.stdout.take().expect("the output is piped"));
        Ok(Program { name, child, lines })
    }

    /// Sends a request and reads so many lines; fewer where the program ends. A program may
    /// answer before it has read a long request, which is sent while its lines are read.
    pub fn ask(&mut self, request: &[u8], count: usize) -> io::Result<Vec<String>> {
        let input = self.child.stdin.as_mut().expect("the input is piped");
        let lines = &mut self.lines;
        if request.len() <= PIPE {
            send(input, request)?;
            return read_lines(lines, count);
        }
        thread::scope(|scope| {
            let sent = scope.spawn(|| send(input, request));
            let answers = read_lines(lines, count);
            sent.join().expect("sending does not panic")?;
            answers
        })
    }

    /// Closes the input and waits: the program is to end with success.
    pub fn end(&mut self) -> Result<(), String> {
        drop(self.child.stdin.take());
        match self.child.wait() {
            Ok(status) if status.success() => Ok(()),
            Ok(status) => Err(format!("{}: FAILED, the program ended with {status}", self.name)),
            Err(why) => Err(format!("{}: FAILED, {why}", self.name)),
        }
    }
}

impl Drop for Program {
    /// No program is left behind.
    fn drop(&mut self) {
        if let Err(why) = self.end() {
            eprintln!("{why}");
        }
    }
}

fn send(input: &mut ChildStdin, request: &[u8]) -> io::Result<()> {
    input.write_all(request)?;
    input.flush()
}

fn read_lines(lines: &mut impl BufRead, count: usize) -> io::Result<Vec<String>> {
    let mut answers = Vec::new();
    for _ in 0..count {
        let mut line = String::new();
        lines.read_line(&mut line)?;
        answers.push(line);
    }
    Ok(answers)
}
