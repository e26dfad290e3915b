//! The other implementation: a program that answers frames.

use crate::compare::frame::{Outcome, Request};
use crate::compare::Other;
use std::io::{self, Read, Write};
use std::process::{Child, ChildStdin, ChildStdout, Command, Stdio};
use std::sync::atomic::{AtomicUsize, Ordering};
use std::sync::{Arc, Mutex};
use std::thread;
use std::time::Duration;

/// A program that gives no answer for this long is ended.
const PATIENCE: Duration = Duration::from_secs(30);

pub struct Probe {
    child: Arc<Mutex<Child>>,
    input: ChildStdin,
    output: ChildStdout,
    answers: Arc<AtomicUsize>,
}

impl Probe {
    pub fn start(program: &str, arguments: &[String]) -> Result<Probe, String> {
        let mut child = Command::new(program)
            .args(arguments)
            .stdin(Stdio::piped())
            .stdout(Stdio::piped())
            .spawn()
            .map_err(|error| format!("cannot start {program}: {error}"))?;
        let (input, output) = match (child.stdin.take(), child.stdout.take()) {
            (Some(input), Some(output)) => (input, output),
            _ => return Err(format!("cannot talk to {program}")),
        };
        let probe = Probe { child: Arc::new(Mutex::new(child)), input, output, answers: Arc::default() };
        probe.watch();
        Ok(probe)
    }

    /// Ends the program when it gives no answer for too long.
    fn watch(&self) {
        let child = Arc::clone(&self.child);
        let answers = Arc::clone(&self.answers);
        thread::spawn(move || {
            let mut before = usize::MAX;
            while answers.load(Ordering::Relaxed) != before {
                before = answers.load(Ordering::Relaxed);
                thread::sleep(PATIENCE);
            }
            eprintln!("independent: no answer from the probe for {} s", PATIENCE.as_secs());
            if let Ok(mut child) = child.lock() {
                let _ = child.kill();
            }
        });
    }

    fn exchange(&mut self, request: &Request) -> io::Result<Outcome> {
        self.input.write_all(&request.frame())?;
        self.input.flush()?;
        Outcome::read(&mut self.output, request)
    }
}

impl Other for Probe {
    /// One frame in, one frame out.
    fn ask(&mut self, request: &Request) -> Result<Outcome, String> {
        let outcome = self.exchange(request).map_err(|error| match error.kind() {
            io::ErrorKind::UnexpectedEof | io::ErrorKind::BrokenPipe => "the probe ended without a whole answer".into(),
            io::ErrorKind::InvalidData => format!("the probe gave a broken frame: {error}"),
            _ => format!("no talk with the probe: {error}"),
        });
        self.answers.fetch_add(1, Ordering::Relaxed);
        outcome
    }

    /// Ends the input, and demands that the program then ends well and says no more.
    fn finish(self) -> Result<(), String> {
        let Probe { child, input, mut output, .. } = self;
        drop(input);
        let mut more = Vec::new();
        output.read_to_end(&mut more).map_err(|error| format!("no talk with the probe: {error}"))?;
        if !more.is_empty() {
            return Err(format!("the probe gave a broken frame: {} bytes after the last answer", more.len()));
        }
        let mut child = child.lock().map_err(|error| error.to_string())?;
        let status = child.wait().map_err(|error| format!("cannot await the probe: {error}"))?;
        if status.success() {
            Ok(())
        } else {
            Err(format!("the probe ended with {status}"))
        }
    }
}
