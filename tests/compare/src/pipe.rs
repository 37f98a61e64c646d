//! A program at the other end of a pipe.

use std::io::{self, Read, Write};
use std::process::{Child, ChildStdin, ChildStdout, Command, Stdio};
use std::sync::atomic::{AtomicU64, Ordering};
use std::sync::{Arc, Mutex};
use std::time::Duration;

use crate::request::Request;

/// A program that does not answer for this long is ended, and that is a disagreement.
const PATIENCE: Duration = Duration::from_secs(60);

pub struct Server {
    child: Arc<Mutex<Child>>,
    requests: Option<ChildStdin>,
    answers: ChildStdout,
    answered: Arc<AtomicU64>,
}

impl Server {
    pub fn start(program: &[String]) -> io::Result<Server> {
        let mut child =
            Command::new(&program[0]).args(&program[1..]).stdin(Stdio::piped()).stdout(Stdio::piped()).spawn()?;
        let requests = child.stdin.take();
        let answers = child.stdout.take().expect("the output is a pipe");
        let child = Arc::new(Mutex::new(child));
        let answered = Arc::new(AtomicU64::new(0));
        let (watched, count) = (Arc::downgrade(&child), Arc::clone(&answered));
        std::thread::spawn(move || {
            let mut last = u64::MAX;
            loop {
                std::thread::sleep(PATIENCE);
                let Some(child) = watched.upgrade() else { return };
                let now = count.load(Ordering::Relaxed);
                if now == last {
                    let _ = child.lock().unwrap().kill();
                    return;
                }
                last = now;
            }
        });
        Ok(Server { child, requests, answers, answered })
    }

    /// Sends one request and reads its answer. Fewer bytes come back where the program ended before.
    pub fn ask(&mut self, request: &Request) -> Vec<u8> {
        let requests = self.requests.as_mut().expect("the input is open");
        let mut answer = Vec::new();
        if requests.write_all(&request.bytes()).and_then(|()| requests.flush()).is_ok() {
            self.read(&mut answer, 1);
            if let [first] = answer[..] {
                self.read(&mut answer, request.answer_size(first) - 1);
            }
        }
        self.answered.fetch_add(1, Ordering::Relaxed);
        answer
    }

    /// Reads so many bytes more, or fewer where there are no more.
    fn read(&mut self, into: &mut Vec<u8>, bytes: usize) {
        let _ = (&mut self.answers).take(bytes as u64).read_to_end(into);
    }

    /// Ends the input; answers what was still written, and whether the program ended normally.
    pub fn finish(mut self) -> io::Result<(Vec<u8>, bool)> {
        drop(self.requests.take());
        let mut rest = Vec::new();
        self.answers.read_to_end(&mut rest)?;
        let status = self.child.lock().unwrap().wait()?;
        Ok((rest, status.success()))
    }
}

impl Drop for Server {
    fn drop(&mut self) {
        drop(self.requests.take());
        let mut child = self.child.lock().unwrap();
        if !matches!(child.try_wait(), Ok(Some(_))) {
            let _ = child.kill();
            let _ = child.wait();
        }
    }
}

/// What a program wrote on a whole input, to standard output and to standard error, and whether it ended normally. A
/// program may end without reading all of its input.
pub fn run(program: &[String], input: &[u8]) -> io::Result<(Vec<u8>, Vec<u8>, bool)> {
    let mut child = Command::new(&program[0])
        .args(&program[1..])
        .stdin(Stdio::piped())
        .stdout(Stdio::piped())
        .stderr(Stdio::piped())
        .spawn()?;
    let mut stdin = child.stdin.take().expect("the input is a pipe");
    let input = input.to_vec();
    let writer = std::thread::spawn(move || {
        let _ = stdin.write_all(&input);
    });
    let output = child.wait_with_output()?;
    let _ = writer.join();
    Ok((output.stdout, output.stderr, output.status.success()))
}
