//! The port's side: the proved program `rows`, asked over a pipe.

use std::io::{BufRead, BufReader, BufWriter, Write};
use std::process::{Child, ChildStdin, ChildStdout, Command, Stdio};

pub struct Port {
    child: Child,
    to: BufWriter<ChildStdin>,
    from: BufReader<ChildStdout>,
}

impl Port {
    /// `command` is what runs `rows` here, the words parted by spaces.
    pub fn start(command: &str) -> Port {
        let mut words = command.split_whitespace();
        let mut child = Command::new(words.next().expect("a command"))
            .args(words)
            .stdin(Stdio::piped())
            .stdout(Stdio::piped())
            .spawn()
            .unwrap_or_else(|e| panic!("{command}: {e}"));
        let to = BufWriter::with_capacity(1 << 20, child.stdin.take().expect("a pipe"));
        let from = BufReader::with_capacity(1 << 20, child.stdout.take().expect("a pipe"));
        Port { child, to, from }
    }

    /// The answers to a batch of questions, small enough that neither pipe fills while the other waits.
    pub fn ask(&mut self, questions: &[String]) -> Vec<String> {
        let (to, from) = (&mut self.to, &mut self.from);
        std::thread::scope(|scope| {
            scope.spawn(move || {
                for q in questions {
                    to.write_all(q.as_bytes()).expect("a question is taken");
                    to.write_all(b"\n").expect("a question is taken");
                }
                to.flush().expect("a question is taken");
            });
            questions
                .iter()
                .map(|q| {
                    let mut line = String::new();
                    let n = from.read_line(&mut line).expect("an answer");
                    assert!(n > 0, "`rows` ended before it answered: {q}");
                    line.trim_end_matches('\n').to_string()
                })
                .collect()
        })
    }
}

impl Drop for Port {
    fn drop(&mut self) {
        let _ = self.child.kill();
        let _ = self.child.wait();
    }
}
