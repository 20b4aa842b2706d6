//! Waiting for a lock that another program holds: for as long as the user allows, and not in silence.
use crate::failure::Failure;
use crate::text;
use std::fs::{File, TryLockError};
use std::io::{self, Write};
use std::path::Path;
use std::sync::OnceLock;
use std::thread;
use std::time::{Duration, Instant};

/// From when on a line says what is waited for.
const QUIET: Duration = Duration::from_secs(1);
const PAUSE: Duration = Duration::from_millis(10);

/// What `--timeout` allows; without it there is no end.
static MOST: OnceLock<Duration> = OnceLock::new();

#[derive(Clone, Copy, PartialEq, Eq)]
pub enum Lock {
    Shared,
    Exclusive,
}

/// Waits no longer than that for any lock.
pub fn at_most(limit: Duration) {
    let _ = MOST.set(limit);
}

/// Locks a file. A failure of the lock itself is one of the file.
pub fn lock(file: &File, path: &Path, lock: Lock) -> Result<(), Failure> {
    let (start, mut told) = (Instant::now(), false);
    loop {
        let tried = if lock == Lock::Shared { file.try_lock_shared() } else { file.try_lock() };
        match tried {
            Ok(()) => return Ok(()),
            Err(TryLockError::Error(error)) => return Err(Failure::file(path, error)),
            Err(TryLockError::WouldBlock) => {}
        }
        let name = text::file(path);
        if MOST.get().is_some_and(|limit| start.elapsed() >= *limit) {
            let done = if lock == Lock::Shared { "read" } else { "written" };
            return Err(Failure::Unwilling(format!(
                "'{name}' is locked by another program for longer than --timeout allows: nothing is {done}"
            )));
        }
        if !told && start.elapsed() >= QUIET {
            told = true;
            // If standard error fails there is nobody to tell.
            let _ = writeln!(
                io::stderr(),
                "winnathey: waiting for another program, which has locked '{name}' (--timeout SECONDS sets an end)"
            );
        }
        thread::sleep(PAUSE);
    }
}
