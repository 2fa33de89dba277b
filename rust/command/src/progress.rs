//! Says on standard error that a command is still at work, where it takes seconds.
use std::io::{self, IsTerminal, Write};
use std::sync::Arc;
use std::sync::atomic::{AtomicU64, Ordering};
use std::sync::mpsc::{self, RecvTimeoutError, Sender};
use std::thread::{self, JoinHandle};
use std::time::{Duration, Instant};

/// Does something that isn't counted, and says so where it takes seconds.
pub fn during<T>(doing: &'static str, done: impl FnOnce() -> T) -> T {
    let _progress = Progress::new(doing, None);
    done()
}

/// While this is held, standard error hears of it: on a terminal one line that changes every second, else a line every ten.
pub struct Progress {
    done: Arc<AtomicU64>,
    running: Option<(Sender<()>, JoinHandle<()>)>,
}

impl Progress {
    /// Begins with what is being done, and what is counted, if anything is.
    pub fn new(doing: &'static str, counted: Option<&'static str>) -> Progress {
        let done = Arc::new(AtomicU64::new(0));
        let (end, ended) = mpsc::channel();
        let count = Arc::clone(&done);
        let say = move || {
            let begun = Instant::now();
            let terminal = io::stderr().is_terminal();
            let every = Duration::from_secs(if terminal { 1 } else { 10 });
            let mut wait = Duration::from_secs(2);
            let mut said = false;
            while ended.recv_timeout(wait) == Err(RecvTimeoutError::Timeout) {
                let line =
                    told(doing, begun.elapsed().as_secs(), counted.map(|what| (count.load(Ordering::Relaxed), what)));
                let begin = if terminal { "\r" } else { "" };
                let end = if terminal { "\x1b[K" } else { "\n" };
                // Nobody who can't be told is told.
                let _ = write!(io::stderr(), "{begin}mealplan: {line}{end}");
                (wait, said) = (every, true);
            }
            if said && terminal {
                let _ = write!(io::stderr(), "\r\x1b[K");
            }
        };
        // A machine that can't have one more thread does the work without a word.
        let running = thread::Builder::new().spawn(say).ok().map(|thread| (end, thread));
        Progress { done, running }
    }

    /// So many more are done.
    pub fn add(&self, count: u64) {
        self.done.fetch_add(count, Ordering::Relaxed);
    }
}

fn told(doing: &str, seconds: u64, counted: Option<(u64, &str)>) -> String {
    match counted {
        Some((count, what)) => format!("{doing}, {count} {what}, {seconds} s"),
        None => format!("{doing}, {seconds} s"),
    }
}

impl Drop for Progress {
    fn drop(&mut self) {
        if let Some((end, thread)) = self.running.take() {
            drop(end);
            let _ = thread.join();
        }
    }
}

#[cfg(test)]
mod tests {
    use super::*;

    #[test]
    fn it_tells_what_and_how_long() {
        assert_eq!(told("showing", 3, Some((200, "lines"))), "showing, 200 lines, 3 s");
        assert_eq!(told("checking", 12, None), "checking, 12 s");
    }

    #[test]
    fn it_ends_at_once() {
        let begun = Instant::now();
        Progress::new("nothing", None).add(1);
        assert!(begun.elapsed() < Duration::from_secs(1));
    }
}
