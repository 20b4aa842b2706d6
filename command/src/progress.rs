//! A progress line on standard error, where that is a terminal, from the end of the first second on.
use crate::text::grouped;
use std::io::{self, IsTerminal, Write};
use std::sync::Arc;
use std::sync::atomic::{AtomicUsize, Ordering};
use std::sync::mpsc::{self, Receiver, RecvTimeoutError, Sender};
use std::thread::{self, JoinHandle};
use std::time::Duration;

const QUIET: Duration = Duration::from_secs(1);
const PAUSE: Duration = Duration::from_millis(200);

struct Steps {
    /// What is said while the number of all is not known.
    unknown: &'static str,
    done: AtomicUsize,
    /// 0 while it is not known.
    all: AtomicUsize,
}

/// The line goes when this is dropped.
pub struct Progress {
    steps: Arc<Steps>,
    /// Dropped first: the thread then ends.
    work: Option<(Sender<()>, JoinHandle<()>)>,
}

impl Progress {
    /// Of steps whose number is found first.
    pub fn start() -> Progress {
        Progress::saying("counting the steps")
    }

    /// Of words that are found, nobody knows how many.
    pub fn of_words() -> Progress {
        Progress::saying("words found:")
    }

    pub fn of_windows() -> Progress {
        Progress::saying("windows looked at:")
    }

    pub fn of_presets() -> Progress {
        Progress::saying("presets done:")
    }

    fn saying(unknown: &'static str) -> Progress {
        let steps = Arc::new(Steps { unknown, done: AtomicUsize::new(0), all: AtomicUsize::new(0) });
        let mut progress = Progress { steps: steps.clone(), work: None };
        if io::stderr().is_terminal() {
            let (running, stopped) = mpsc::channel();
            // Without a thread there is no line.
            let thread = thread::Builder::new().spawn(move || tell(&steps, &stopped));
            progress.work = thread.ok().map(|thread| (running, thread));
        }
        progress
    }

    pub fn of(&self, all: usize) {
        self.steps.all.store(all, Ordering::Relaxed);
    }

    pub fn done(&self, steps: usize) {
        self.steps.done.store(steps, Ordering::Relaxed);
    }

    /// Takes the line away for good.
    pub fn end(&mut self) {
        if let Some((running, thread)) = self.work.take() {
            drop(running);
            let _ = thread.join();
        }
    }
}

impl Drop for Progress {
    fn drop(&mut self) {
        self.end();
    }
}

/// Writes the line again and again. If standard error fails the work goes on without it.
fn tell(steps: &Steps, stopped: &Receiver<()>) {
    let mut pause = QUIET;
    while stopped.recv_timeout(pause) == Err(RecvTimeoutError::Timeout) {
        let (done, all) = (steps.done.load(Ordering::Relaxed), steps.all.load(Ordering::Relaxed));
        let line = match all {
            0 if done == 0 => steps.unknown.to_string(),
            0 => format!("{} {}", steps.unknown, grouped(done as u64)),
            all => format!("step {} of {}", grouped(done as u64), grouped(all as u64)),
        };
        let _ = write!(io::stderr(), "\rwinnathey: {line}\x1b[K");
        pause = PAUSE;
    }
    if pause == PAUSE {
        let _ = write!(io::stderr(), "\r\x1b[K");
    }
}
