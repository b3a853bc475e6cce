//! CPython's `math.fsum`, in one process that answers line by line.

use std::io::{BufRead, BufReader, Write};
use std::process::{Child, ChildStdin, ChildStdout, Command, Stdio};

pub struct Python {
    child: Child,
    input: Option<ChildStdin>,
    output: BufReader<ChildStdout>,
}

impl Python {
    /// None where `python3` does not start.
    pub fn start() -> Option<Self> {
        let mut command = Command::new("python3");
        command.args(["-c", include_str!("fsum.py")]).stdin(Stdio::piped()).stdout(Stdio::piped());
        let mut child = command.spawn().ok()?;
        let input = child.stdin.take();
        let output = BufReader::new(child.stdout.take()?);
        Some(Self { child, input, output })
    }

    fn ask(&mut self, question: &str) -> String {
        let input = self.input.as_mut().expect("python3 is asked before it is dropped");
        writeln!(input, "{question}").expect("python3 reads");
        let mut answer = String::new();
        self.output.read_line(&mut answer).expect("python3 answers");
        answer.trim().to_string()
    }

    /// Gives it the list. None where fsum raises.
    pub fn list(&mut self, words: &[[u64; 1]]) -> Option<u64> {
        let words: Vec<String> = words.iter().map(|[word]| format!("{word:016x}")).collect();
        u64::from_str_radix(&self.ask(&format!("list {}", words.join(" "))), 16).ok()
    }

    /// The nanoseconds of so many calls.
    pub fn batch(&mut self, calls: u32) -> f64 {
        self.ask(&format!("time {calls}")).parse().expect("python3 answers with a number")
    }
}

impl Drop for Python {
    fn drop(&mut self) {
        // it ends where its input ends
        self.input = None;
        let _ = self.child.wait();
    }
}
