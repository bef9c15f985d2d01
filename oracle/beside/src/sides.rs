//! A program that answers commands, kept running.

use std::io::{BufRead, BufReader, Write};
use std::process::{Child, ChildStdin, ChildStdout, Command, Stdio};

pub struct Program {
    name: String,
    // Held so that the program lives as long as this.
    _child: Child,
    input: ChildStdin,
    output: BufReader<ChildStdout>,
}

impl Program {
    pub fn start(name: &str, arguments: &[&str]) -> Program {
        let mut child = Command::new(name)
            .args(arguments)
            .stdin(Stdio::piped())
            .stdout(Stdio::piped())
            .spawn()
            .unwrap_or_else(|error| stop(name, &error.to_string()));
        let input = child.stdin.take().unwrap();
        let output = BufReader::new(child.stdout.take().unwrap());
        Program { name: name.to_string(), _child: child, input, output }
    }

    /// The answers to the commands, one line each.
    pub fn ask(&mut self, lines: &[Vec<u8>]) -> Vec<Vec<u8>> {
        let Program { name, input, output, .. } = self;
        let text = lines.iter().flat_map(|line| line.iter().copied().chain([b'\n'])).collect::<Vec<u8>>();
        std::thread::scope(|scope| {
            let sent = scope.spawn(|| input.write_all(&text).and_then(|()| input.flush()));
            let mut answers = Vec::with_capacity(lines.len());
            for command in lines {
                let mut answer = Vec::new();
                let got = output.read_until(b'\n', &mut answer).unwrap_or(0);
                if got == 0 || answer.pop() != Some(b'\n') {
                    stop(name, &format!("ended at {}", String::from_utf8_lossy(command)));
                }
                answers.push(answer);
            }
            if let Err(error) = sent.join().unwrap() {
                stop(name, &error.to_string());
            }
            answers
        })
    }
}

fn stop(name: &str, why: &str) -> ! {
    eprintln!("beside: {name}: {why}");
    std::process::exit(2)
}
