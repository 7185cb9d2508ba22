//! Ctrl-C.

use super::Failure;
use std::io::{self, Write};
use std::process::exit;
use std::sync::atomic::{AtomicBool, Ordering};
use std::sync::{Arc, Mutex, MutexGuard, PoisonError};

/// What a program that was interrupted says and ends with.
pub const MESSAGE: &str = "interrupted; no file is left half written";
pub const STATUS: u8 = 130;

/// Ctrl-C, from when it is heard. It ends the program at once, wherever it waits. In an orderly part, as a write, it is noted: the part comes to its end, or to a
/// place where it looks. The second one ends the program there too.
pub struct Interrupt(Arc<State>);

struct State {
    asked: AtomicBool,
    orderly: Mutex<bool>,
}

/// An orderly part, until it is dropped.
pub struct Orderly<'a>(&'a Interrupt);

impl Interrupt {
    pub fn heard() -> Result<Self, String> {
        let state = Arc::new(State { asked: AtomicBool::new(false), orderly: Mutex::new(false) });
        let told = state.clone();
        ctrlc::set_handler(move || told.interrupted()).map_err(|e| format!("Ctrl-C: {e}"))?;
        Ok(Self(state))
    }

    /// Set by a Ctrl-C that was noted.
    pub fn asked(&self) -> &AtomicBool {
        &self.0.asked
    }

    /// The end, if it was asked for.
    pub fn check(&self) -> Result<(), Failure> {
        if self.asked().load(Ordering::Relaxed) { Err(Failure::Interrupted) } else { Ok(()) }
    }

    #[must_use]
    pub fn orderly(&self) -> Orderly<'_> {
        *self.0.orderly() = true;
        Orderly(self)
    }
}

impl Drop for Orderly<'_> {
    fn drop(&mut self) {
        *self.0.0.orderly() = false;
    }
}

impl State {
    fn orderly(&self) -> MutexGuard<'_, bool> {
        self.orderly.lock().unwrap_or_else(PoisonError::into_inner)
    }

    fn interrupted(&self) {
        // held to the program's end, so that no orderly part begins on the way there
        let orderly = self.orderly();
        if self.asked.swap(true, Ordering::Relaxed) {
            // what was being written is under a temporary name still
            end("interrupted at once");
        }
        if !*orderly {
            end(MESSAGE);
        }
    }
}

fn end(message: &str) -> ! {
    let _ = writeln!(io::stderr(), "cichowiej: {message}");
    exit(STATUS.into())
}
