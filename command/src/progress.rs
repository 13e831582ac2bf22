//! Elapsed time on a terminal while calls of the library run.

use std::io::{IsTerminal, Write};
use std::sync::mpsc;
use std::thread;
use std::time::{Duration, Instant};

const FIRST: Duration = Duration::from_millis(500);
const EACH: Duration = Duration::from_millis(200);

/// Runs the call, and says the time that it took. Its table belongs to the call while it runs, so that only the time is shown.
pub fn timed<T>(what: &str, show: bool, call: impl FnOnce() -> T) -> (T, Duration) {
    let start = Instant::now();
    if !show || !std::io::stderr().is_terminal() {
        return (call(), start.elapsed());
    }
    thread::scope(|scope| {
        let (running, ended) = mpsc::channel();
        // Where no second thread is to be had, nothing is shown.
        let _ = thread::Builder::new().spawn_scoped(scope, move || watch(what, start, &ended));
        let result = call();
        drop(running);
        (result, start.elapsed())
    })
}

/// Shows the time until the sender is dropped.
fn watch(what: &str, start: Instant, ended: &mpsc::Receiver<()>) {
    let mut wait = FIRST;
    while ended.recv_timeout(wait) == Err(mpsc::RecvTimeoutError::Timeout) {
        show(what, start.elapsed());
        wait = EACH;
    }
    clear(wait != FIRST);
}

fn show(what: &str, elapsed: Duration) {
    let mut terminal = std::io::stderr();
    let _ = write!(terminal, "\r{what}: {:.1} s ", elapsed.as_secs_f64()).and_then(|()| terminal.flush());
}

fn clear(shown: bool) {
    if shown {
        let mut terminal = std::io::stderr();
        let _ = write!(terminal, "\r\x1b[K").and_then(|()| terminal.flush());
    }
}
