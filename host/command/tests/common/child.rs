//! A program that is watched while it runs, and waited for up to a time.

// each test's program uses a part of it
#![allow(dead_code)]

use std::fs;
use std::io::Read;
use std::process::{Child, Command, Stdio};
use std::thread::sleep;
use std::time::{Duration, Instant};

/// Far more than anything takes that is waited for here.
const LONGEST: Duration = Duration::from_secs(30);

/// Asks again and again until there is an answer.
pub fn until<T>(what: &str, mut ask: impl FnMut() -> Option<T>) -> T {
    let begun = Instant::now();
    loop {
        if let Some(answer) = ask() {
            return answer;
        }
        assert!(begun.elapsed() < LONGEST, "{what}: not after {LONGEST:?}");
        sleep(Duration::from_millis(1));
    }
}

/// Ended, by its id alone, where a test fails.
pub struct Running(Child);

impl Drop for Running {
    fn drop(&mut self) {
        let _ = self.0.kill();
        let _ = self.0.wait();
    }
}

impl Running {
    pub fn new(command: &mut Command) -> Self {
        Self(command.stdout(Stdio::null()).stderr(Stdio::piped()).spawn().unwrap())
    }

    fn status(&self, name: &str) -> Option<String> {
        value(&fs::read_to_string(format!("/proc/{}/status", self.0.id())).ok()?, name)
    }

    /// How often the thread that hears Ctrl-C has lain down to wait.
    fn pauses(&self) -> usize {
        let tasks = fs::read_dir(format!("/proc/{}/task", self.0.id())).unwrap();
        let texts = tasks.filter_map(|task| fs::read_to_string(task.ok()?.path().join("status")).ok());
        let hearing = texts.filter(|text| value(text, "Name").as_deref() == Some("ctrl-c"));
        hearing.filter_map(|text| value(&text, "voluntary_ctxt_switches")?.parse::<usize>().ok()).sum()
    }

    /// Waits until it hears Ctrl-C and waits for something itself, for a while already.
    pub fn waits(&self) {
        let mut times = 0;
        until("it does not wait", || {
            let hears = self.status("SigCgt").is_some_and(|mask| u64::from_str_radix(&mask, 16).unwrap() & 2 != 0);
            let sleeps = self.status("State").is_some_and(|state| state.starts_with('S'));
            times = if hears && sleeps { times + 1 } else { 0 };
            (times > 30).then_some(())
        })
    }

    pub fn interrupt(&self) {
        assert!(Command::new("kill").args(["-INT", &self.0.id().to_string()]).status().unwrap().success());
    }

    /// The same, of one that goes on: until it has been heard.
    pub fn interrupt_and_wait(&self) {
        let before = self.pauses();
        self.interrupt();
        until("Ctrl-C is not heard", || (self.pauses() > before).then_some(()));
    }

    pub fn has_ended(&mut self) -> bool {
        self.0.try_wait().unwrap().is_some()
    }

    /// What it ends with, and what it says on standard error.
    pub fn end(mut self) -> (Option<i32>, String) {
        let status = until("it does not end", || self.0.try_wait().unwrap());
        let mut text = String::new();
        self.0.stderr.take().unwrap().read_to_string(&mut text).unwrap();
        (status.code(), text)
    }

    /// The most memory that it has held when it ends, in bytes.
    pub fn peak(mut self) -> usize {
        let mut most = 0;
        until("it does not end", || {
            let held = self.status("VmHWM").and_then(|text| text.strip_suffix(" kB")?.parse::<usize>().ok());
            most = held.unwrap_or(0).max(most);
            self.has_ended().then_some(())
        });
        assert!(self.0.wait().unwrap().success());
        most * 1024
    }
}

/// Of a line as `State: S (sleeping)`.
fn value(text: &str, name: &str) -> Option<String> {
    text.lines().find_map(|line| line.strip_prefix(name)?.strip_prefix(':').map(|value| value.trim().to_string()))
}

/// A pipe with this name.
pub fn make_pipe(path: &std::path::Path) {
    assert!(Command::new("mkfifo").arg(path).status().unwrap().success());
}
